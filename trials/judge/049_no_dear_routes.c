#include "leafrunt.h"

SEC("veto") u64 no_dear_routes(const struct route *r)
{
	if (r->kind == INTRA_AREA || r->kind == INTER_AREA)
		return r->cost > 10000;
	return 0;
}
