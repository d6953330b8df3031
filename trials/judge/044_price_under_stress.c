#include "leafrunt.h"

SEC("price") u64 price_under_stress(const struct destination *d)
{
	u64 malformed = counter_read(22);

	if (malformed >= 10000)
		return 16777215;
	if (malformed >= 1000)
		return d->metric + 500;
	return d->metric;
}
