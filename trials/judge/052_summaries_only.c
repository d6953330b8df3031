#include "leafrunt.h"

SEC("veto") u64 summaries_only(const struct route *r)
{
	return r->kind == INTER_AREA && r->length > 16;
}
