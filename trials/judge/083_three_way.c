#include "leafrunt.h"

static inline int compare(u32 a, u32 b)
{
	if (a < b)
		return -1;
	if (a > b)
		return 1;
	return 0;
}

SEC("veto") u64 three_way(const struct route *r)
{
	int order = compare(r->cost, 500);

	if (order == 0)
		order = compare(r->length, 24);
	return order > 0;
}
