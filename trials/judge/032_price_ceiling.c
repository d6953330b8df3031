#include "leafrunt.h"

#define INFINITY 16777215

SEC("price") u64 price_ceiling(const struct destination *d)
{
	if (d->metric >= INFINITY)
		return INFINITY;
	return d->metric > 1000 ? 1000 : d->metric;
}
