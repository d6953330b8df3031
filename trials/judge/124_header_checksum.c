/* Verifies the checksum of OSPF packets (RFC 2328, D.4). */
#include "leafrunt.h"

#define HEADER 24
#define MOST 1500
#define CRYPTOGRAPHIC 2

enum { RIGHT = 60, WRONG = 61, UNKNOWN = 62 };

static inline u32 half(u32 at)
{
	return packet_byte(at) << 8 | packet_byte(at + 1);
}

static inline u32 fold(u32 sum)
{
	sum = (sum & 0xffff) + (sum >> 16);
	sum = (sum & 0xffff) + (sum >> 16);
	return sum;
}

SEC("count") u64 header_checksum(const struct datagram *d)
{
	u32 length, at;
	u32 sum = 0;

	if (d->length < HEADER) {
		counter_add(UNKNOWN, 1);
		return 0;
	}
	length = half(2);
	if (length < HEADER || length > d->length || length > MOST || half(14) == CRYPTOGRAPHIC) {
		counter_add(UNKNOWN, 1);
		return 0;
	}

	for (at = 0; at < MOST; at += 2) {
		if (at >= length)
			break;
		if (at >= 16 && at < 24)
			continue;
		sum += packet_byte(at) << 8;
		if (at + 1 < length)
			sum += packet_byte(at + 1);
	}

	counter_add(fold(sum) == 0xffff ? RIGHT : WRONG, 1);
	return 0;
}
