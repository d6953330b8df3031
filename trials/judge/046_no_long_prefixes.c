#include "leafrunt.h"

SEC("veto") u64 no_long_prefixes(const struct route *r)
{
	if (r->length <= 28)
		return 0;
	if (r->length == 32 && FIRST(r->prefix, 16) == FIRST(ADDRESS(10, 255, 0, 0), 16))
		return 0;
	return 1;
}
