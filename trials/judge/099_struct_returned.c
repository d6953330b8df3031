#include "leafrunt.h"

struct range {
	u32 first, last;
};

static inline struct range range_of(u32 prefix, u32 length)
{
	u32 mask = length == 0 ? 0 : ~0u << (32 - length);
	struct range range = { prefix & mask, prefix | ~mask };

	return range;
}

SEC("veto") u64 struct_returned(const struct route *r)
{
	struct range range = range_of(r->prefix, r->length);

	return range.first <= ADDRESS(100, 127, 255, 255) && range.last >= ADDRESS(100, 64, 0, 0);
}
