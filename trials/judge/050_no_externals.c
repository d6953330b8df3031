#include "leafrunt.h"

SEC("veto") u64 no_externals(const struct route *r)
{
	if (r->length == 0)
		return 0;
	return r->kind >= EXTERNAL_1;
}
