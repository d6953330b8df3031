#include "leafrunt.h"

SEC("veto") u64 host_bits(const struct route *r)
{
	u32 mask;

	if (r->length > 32)
		return 1;
	mask = r->length == 0 ? 0 : 0xffffffff << (32 - r->length);
	return (r->prefix & ~mask) != 0;
}
