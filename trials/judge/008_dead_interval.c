#include "leafrunt.h"

static inline u32 half(u32 offset)
{
	return packet_byte(offset) << 8 | packet_byte(offset + 1);
}

static inline u32 word(u32 offset)
{
	return half(offset) << 16 | half(offset + 2);
}

SEC("count") u64 dead_interval(const struct datagram *d)
{
	if (d->type != HELLO || d->length < 44)
		return 0;
	if (word(32) != 4 * half(28))
		counter_add(24, 1);
	return 0;
}
