#include "leafrunt.h"

SEC("tag") u64 tag_by_type(const struct destination *d)
{
	return d->type == 1 ? 100 : 200;
}
