#include "leafrunt.h"

#define HELLO_LENGTH 44

static inline u32 half(u32 offset)
{
	return packet_byte(offset) << 8 | packet_byte(offset + 1);
}

SEC("count") u64 internet_checksum(const struct datagram *d)
{
	u32 sum = 0;
	u32 i;

	if (d->type != HELLO || d->length != HELLO_LENGTH)
		return 0;
	for (i = 0; i < HELLO_LENGTH; i += 2) {
		if (i == 12 || (i >= 16 && i < 24))
			continue;
		sum += half(i);
	}
	sum = (sum & 0xffff) + (sum >> 16);
	sum += sum >> 16;
	if ((~sum & 0xffff) != half(12))
		counter_add(207, 1);
	return 0;
}
