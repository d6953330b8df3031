#include "leafrunt.h"

SEC("price") u64 signed_offset(const struct destination *d)
{
	signed char correction = (signed char)d->tag;
	int metric = (int)d->metric + correction;

	if (metric < 1)
		metric = 1;
	if (metric > 16777214)
		metric = 16777214;
	return metric;
}
