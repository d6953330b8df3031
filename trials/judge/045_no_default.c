#include "leafrunt.h"

SEC("veto") u64 no_default(const struct route *r)
{
	return r->length == 0;
}
