#include "leafrunt.h"

SEC("tag") u64 tag_marked(const struct destination *d)
{
	return d->tag | 1u << 31;
}
