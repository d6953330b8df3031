#include "leafrunt.h"

SEC("veto") u64 our_block(const struct route *r)
{
	if (WITHIN(r->prefix, r->length, ADDRESS(198, 51, 100, 0), 24) && r->kind != INTRA_AREA)
		return 1;
	return 0;
}
