#include "leafrunt.h"

SEC("tag") u64 tag_by_length(const struct destination *d)
{
	return 1000 + d->length;
}
