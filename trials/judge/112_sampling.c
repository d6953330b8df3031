#include "leafrunt.h"

static inline u32 xorshift(u32 x)
{
	x ^= x << 13;
	x ^= x >> 17;
	x ^= x << 5;
	return x;
}

SEC("count") u64 sampling(const struct datagram *d)
{
	u64 *state = cells() + 21;

	if (*state == 0)
		*state = 2463534242u;
	*state = xorshift(*state);
	if (*state % 16 == 0) {
		counter_add(210, 1);
		counter_add(211, d->length);
	}
	return 0;
}
