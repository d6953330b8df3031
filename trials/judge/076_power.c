#include "leafrunt.h"

static inline u64 power(u64 base, u32 n)
{
	u64 p = 1;
	u32 i;

	for (i = 1; i <= 8 && i <= n; ++i)
		p = p * base;
	return p;
}

SEC("price") u64 powers(const struct destination *d)
{
	static const u32 bases[3] = { 2, 3, 5 };

	return power(bases[d->metric % 3], d->length / 4);
}
