#include "leafrunt.h"

SEC("tag") u64 tag_already_there(const struct destination *d)
{
	if (table_cost(d->prefix, d->length) != NO_ROW)
		return 666;
	return d->tag;
}
