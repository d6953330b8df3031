#include "leafrunt.h"

/* Destinations in 10.0.0.0/8 cost 5 more. Counts by prefix length. */
SEC("price") u64 near(const struct destination *asked)
{
	counter_add(asked->length, 1);
	if (WITHIN(asked->prefix, asked->length, ADDRESS(10, 0, 0, 0), 8))
		return asked->metric + 5ull;
	return asked->metric;
}
