#include "leafrunt.h"

SEC("veto") u64 no_martians(const struct route *r)
{
	return WITHIN(r->prefix, r->length, ADDRESS(0, 0, 0, 0), 8)
		|| WITHIN(r->prefix, r->length, ADDRESS(127, 0, 0, 0), 8)
		|| WITHIN(r->prefix, r->length, ADDRESS(169, 254, 0, 0), 16)
		|| WITHIN(r->prefix, r->length, ADDRESS(224, 0, 0, 0), 4)
		|| WITHIN(r->prefix, r->length, ADDRESS(240, 0, 0, 0), 4);
}
