#include "leafrunt.h"

static inline void normalise(struct destination *d)
{
	if (d->length == 0)
		d->prefix = 0;
	else
		d->prefix &= ~0u << (32 - d->length);
	if (d->tag == 0)
		d->tag = 1;
	if (d->metric == 0)
		d->metric = 1;
}

SEC("price") u64 struct_copied(const struct destination *d)
{
	struct destination own = *d;
	u64 price;

	normalise(&own);
	price = (u64)own.metric * own.tag;
	return price < 16777214 ? price : 16777214;
}
