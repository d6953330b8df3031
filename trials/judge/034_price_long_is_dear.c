#include "leafrunt.h"

SEC("price") u64 price_long_is_dear(const struct destination *d)
{
	u32 metric = d->metric;

	if (d->length > 24)
		metric += 10 * (d->length - 24);
	return metric;
}
