#include "leafrunt.h"

SEC("veto") u64 count_private(const struct route *r)
{
	u32 p = r->prefix, n = r->length;

	if (r->kind != EXTERNAL_1 && r->kind != EXTERNAL_2)
		return 0;
	if (WITHIN(p, n, ADDRESS(10, 0, 0, 0), 8) || WITHIN(p, n, ADDRESS(172, 16, 0, 0), 12) ||
	    WITHIN(p, n, ADDRESS(192, 168, 0, 0), 16)) {
		counter_add(150, 1);
		return 1;
	}
	return 0;
}
