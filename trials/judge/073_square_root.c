#include "leafrunt.h"

static inline u32 isqrt(u32 n)
{
	u32 root = 0;
	u32 bit;

	for (bit = 1u << 30; bit != 0; bit >>= 2) {
		if (n >= root + bit) {
			n -= root + bit;
			root = (root >> 1) + bit;
		} else {
			root >>= 1;
		}
	}
	return root;
}

SEC("price") u64 square_root(const struct destination *d)
{
	return isqrt(d->metric);
}
