#include "leafrunt.h"

static inline u32 rotate_left(u32 x, u32 n)
{
	n %= 32;
	if (n == 0)
		return x;
	return x << n | x >> (32 - n);
}

SEC("tag") u64 rotate(const struct destination *d)
{
	return rotate_left(d->tag, d->length);
}
