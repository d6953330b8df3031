#include "leafrunt.h"

#define WITHHOLD 0xffffff

SEC("price") u64 price_not_so_specific(const struct destination *d)
{
	if (d->length > 28)
		return WITHHOLD;
	if (d->length < 8 && d->length != 0)
		return WITHHOLD;
	return d->metric;
}
