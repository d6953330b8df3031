#include "leafrunt.h"

SEC("tag") u64 tag_private(const struct destination *d)
{
	if (WITHIN(d->prefix, d->length, ADDRESS(10, 0, 0, 0), 8) ||
	    WITHIN(d->prefix, d->length, ADDRESS(172, 16, 0, 0), 12) ||
	    WITHIN(d->prefix, d->length, ADDRESS(192, 168, 0, 0), 16))
		return 1918;
	return d->tag;
}
