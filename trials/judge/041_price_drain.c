#include "leafrunt.h"

SEC("price") u64 price_drain(const struct destination *d)
{
	return d->length == 32 ? d->metric : 16777214;
}
