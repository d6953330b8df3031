#include "leafrunt.h"

SEC("tag") u64 ternary_chain(const struct destination *d)
{
	return d->length <= 8 ? 4 :
	       d->length <= 16 ? 3 :
	       d->length <= 24 ? 2 :
	       d->length <= 31 ? 1 : 0;
}
