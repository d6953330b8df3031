#include "leafrunt.h"

SEC("veto") u64 no_black_tag(const struct route *r)
{
	return (r->kind == EXTERNAL_1 || r->kind == EXTERNAL_2) && r->tag == 666;
}
