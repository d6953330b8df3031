#include "leafrunt.h"

SEC("veto") u64 default_of_two(const struct route *r)
{
	return r->length == 0 && r->next_hops < 2;
}
