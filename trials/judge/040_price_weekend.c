#include "leafrunt.h"

enum { SUNDAY, MONDAY, TUESDAY, WEDNESDAY, THURSDAY, FRIDAY, SATURDAY };

SEC("price") u64 price_weekend(const struct destination *d)
{
	u32 day = (d->moment / 86400 + THURSDAY) % 7;

	if (day == SATURDAY || day == SUNDAY)
		return (d->metric + 1) / 2;
	return d->metric;
}
