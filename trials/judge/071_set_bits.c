#include "leafrunt.h"

/* x with the n bits from position p down set to the right n bits of y */
static inline u32 setbits(u32 x, int p, int n, u32 y)
{
	u32 mask = ~(~0u << n);

	return (x & ~(mask << (p + 1 - n))) | (y & mask) << (p + 1 - n);
}

SEC("tag") u64 set_bits(const struct destination *d)
{
	return setbits(d->tag, 19, 12, d->metric);
}
