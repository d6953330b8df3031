#include "leafrunt.h"

static inline u32 gcd(u32 a, u32 b)
{
	for (int i = 0; i < 32 && b != 0; i++) {
		u32 rest = a % b;
		a = b;
		b = rest;
	}
	return a;
}

SEC("price") u64 greatest_divisor(const struct destination *d)
{
	return gcd(d->metric, 720);
}
