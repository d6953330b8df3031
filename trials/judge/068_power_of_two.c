#include "leafrunt.h"

SEC("veto") u64 power_of_two(const struct route *r)
{
	return r->cost != 0 && (r->cost & (r->cost - 1)) == 0;
}
