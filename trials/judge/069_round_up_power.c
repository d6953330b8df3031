#include "leafrunt.h"

SEC("price") u64 round_up_power(const struct destination *d)
{
	u32 v = d->metric;

	if (v == 0)
		return 1;
	if (v > 1 << 23)
		return 1 << 23;
	v--;
	v |= v >> 1;
	v |= v >> 2;
	v |= v >> 4;
	v |= v >> 8;
	v |= v >> 16;
	return v + 1;
}
