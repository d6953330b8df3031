#include "leafrunt.h"

SEC("tag") u64 tag_region(const struct destination *d)
{
	if (d->prefix >> 24 != 10 || d->length < 10)
		return 0;
	return (d->prefix >> 22 & 3) + 1;
}
