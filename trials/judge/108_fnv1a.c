#include "leafrunt.h"

#define FNV_OFFSET 2166136261u
#define FNV_PRIME 16777619u

static inline u32 fnv_step(u32 hash, u8 byte)
{
	return (hash ^ byte) * FNV_PRIME;
}

SEC("tag") u64 fnv1a(const struct destination *d)
{
	u32 hash = FNV_OFFSET;
	int shift;

	for (shift = 24; shift >= 0; shift -= 8)
		hash = fnv_step(hash, d->prefix >> shift);
	return fnv_step(hash, d->length);
}
