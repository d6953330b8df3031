#include "leafrunt.h"

SEC("veto") u64 covered_by_24(const struct route *r)
{
	if (r->length <= 24)
		return 0;
	return table_cost(r->prefix & 0xffffff00, 24) <= r->cost;
}
