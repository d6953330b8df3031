#include "leafrunt.h"

SEC("tag") u64 tag_default(const struct destination *d)
{
	if (d->length == 0)
		return 1;
	if (d->tag == 1)
		return 0;
	return d->tag;
}
