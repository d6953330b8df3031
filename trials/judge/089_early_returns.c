#include "leafrunt.h"

SEC("veto") u64 early_returns(const struct route *r)
{
	if (r->length == 0)
		return 0;
	if (r->kind == INTRA_AREA)
		return 0;
	if (r->length > 30)
		return 1;
	if (r->cost == 0)
		return 1;
	if (r->tag >= 64512 && r->tag <= 65534)
		return 1;
	return 0;
}
