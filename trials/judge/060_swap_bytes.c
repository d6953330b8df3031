#include "leafrunt.h"

static inline u32 swap(u32 x)
{
	return x >> 24 | (x >> 8 & 0xff00) | (x << 8 & 0xff0000) | x << 24;
}

SEC("tag") u64 swap_bytes(const struct destination *d)
{
	return swap(d->tag);
}
