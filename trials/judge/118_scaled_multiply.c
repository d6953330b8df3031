#include "leafrunt.h"

SEC("price") u64 scaled_multiply(const struct destination *d)
{
	u64 scaled = ((u64)d->metric * 1000003 + 999983 / 2) / 999983;

	if (scaled > 16777214)
		scaled = 16777214;
	return scaled;
}
