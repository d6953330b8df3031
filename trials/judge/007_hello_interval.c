#include "leafrunt.h"

static inline u32 half(u32 offset)
{
	return packet_byte(offset) << 8 | packet_byte(offset + 1);
}

SEC("count") u64 hello_interval(const struct datagram *d)
{
	if (d->type == HELLO && half(28) != 10)
		counter_add(23, 1);
	return 0;
}
