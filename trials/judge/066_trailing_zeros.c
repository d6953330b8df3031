#include "leafrunt.h"

static inline u32 trailing_zeros(u32 x)
{
	u32 n;

	for (n = 0; n < 32; n++) {
		if (x & 1)
			break;
		x >>= 1;
	}
	return n;
}

SEC("veto") u64 needlessly_long(const struct route *r)
{
	u32 significant = 32 - trailing_zeros(r->prefix);

	return r->length >= significant + 16;
}
