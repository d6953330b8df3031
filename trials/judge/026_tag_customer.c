#include "leafrunt.h"

SEC("tag") u64 tag_customer(const struct destination *d)
{
	if (d->length >= 29 && WITHIN(d->prefix, d->length, ADDRESS(203, 0, 113, 0), 24)) {
		u32 customer = (d->prefix & 0xff) / 8;
		return 5000 + customer;
	}
	return d->tag;
}
