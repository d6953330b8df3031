#include "leafrunt.h"

SEC("veto") u64 bad_gateway(const struct route *r)
{
	if (r->next_hops == 0)
		return r->kind != INTRA_AREA;
	if (r->first_next_hop == ADDRESS(10, 0, 0, 66) || r->first_next_hop == ADDRESS(10, 0, 0, 67))
		return 1;
	return 0;
}
