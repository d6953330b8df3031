#include "leafrunt.h"

SEC("price") u64 price_from_table(const struct destination *d)
{
	u64 cost = table_cost(d->prefix, d->length);

	if (cost == NO_ROW)
		return d->metric;
	return cost + 1;
}
