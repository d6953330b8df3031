#include "leafrunt.h"

#define WITHHELD 16777215

static inline int private(u32 prefix, u32 length)
{
	return WITHIN(prefix, length, ADDRESS(10, 0, 0, 0), 8)
		|| WITHIN(prefix, length, ADDRESS(172, 16, 0, 0), 12)
		|| WITHIN(prefix, length, ADDRESS(192, 168, 0, 0), 16);
}

SEC("price") u64 price_private_withheld(const struct destination *d)
{
	if (private(d->prefix, d->length))
		return WITHHELD;
	return d->metric;
}
