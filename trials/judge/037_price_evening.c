#include "leafrunt.h"

SEC("price") u64 price_evening(const struct destination *d)
{
	u64 second = d->moment % (24 * 60 * 60);

	if (second >= 18 * 3600 && second < 23 * 3600)
		return d->metric + 100;
	return d->metric;
}
