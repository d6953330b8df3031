#include "leafrunt.h"

#define IS(r, a, b, c, d, bits) ((r)->prefix == ADDRESS(a, b, c, d) && (r)->length == (bits))

SEC("veto") u64 allowed_externals(const struct route *r)
{
	if (r->kind < EXTERNAL_1)
		return 0;
	if (IS(r, 0, 0, 0, 0, 0) ||
	    IS(r, 192, 0, 2, 0, 24) ||
	    IS(r, 198, 51, 100, 0, 24) ||
	    IS(r, 203, 0, 113, 0, 24) ||
	    IS(r, 100, 64, 0, 0, 10))
		return 0;
	return 1;
}
