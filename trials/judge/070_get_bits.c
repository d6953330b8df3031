#include "leafrunt.h"

/* n bits of x from position p down */
static inline u32 getbits(u32 x, int p, int n)
{
	return (x >> (p + 1 - n)) & ~(~0u << n);
}

SEC("tag") u64 get_bits(const struct destination *d)
{
	return getbits(d->prefix, 23, 8);
}
