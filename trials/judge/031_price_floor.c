#include "leafrunt.h"

SEC("price") u64 price_floor(const struct destination *d)
{
	if (d->metric < 20)
		return 20;
	return d->metric;
}
