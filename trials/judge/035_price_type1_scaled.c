#include "leafrunt.h"

SEC("price") u64 price_type1_scaled(const struct destination *d)
{
	u32 metric = d->metric;

	if (d->type == 1) {
		metric /= 10;
		if (metric == 0)
			metric = 1;
	}
	return metric;
}
