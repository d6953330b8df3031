#include "leafrunt.h"

SEC("veto") u64 far_exits(const struct route *r)
{
	if (r->kind != EXTERNAL_2)
		return 0;
	if (r->distance > 500)
		return 1;
	if (r->tag == 0 && r->distance >= 100)
		return 1;
	return 0;
}
