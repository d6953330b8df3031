#include "leafrunt.h"

static inline int absolute(int x)
{
	return x < 0 ? -x : x;
}

SEC("price") u64 absolute_difference(const struct destination *d)
{
	return absolute((int)d->metric - 1000) + 1;
}
