/* Keeps external routes to blocks out that never belong in a routing table. */
#include "leafrunt.h"

struct block {
	u32 prefix, length;
};

static const struct block bogons[] = {
	{ ADDRESS(0, 0, 0, 0), 8 },
	{ ADDRESS(10, 0, 0, 0), 8 },
	{ ADDRESS(100, 64, 0, 0), 10 },
	{ ADDRESS(127, 0, 0, 0), 8 },
	{ ADDRESS(169, 254, 0, 0), 16 },
	{ ADDRESS(172, 16, 0, 0), 12 },
	{ ADDRESS(192, 0, 0, 0), 24 },
	{ ADDRESS(192, 0, 2, 0), 24 },
	{ ADDRESS(192, 168, 0, 0), 16 },
	{ ADDRESS(198, 18, 0, 0), 15 },
	{ ADDRESS(198, 51, 100, 0), 24 },
	{ ADDRESS(203, 0, 113, 0), 24 },
	{ ADDRESS(224, 0, 0, 0), 3 },
};

#define BOGONS (sizeof(bogons) / sizeof(bogons[0]))

SEC("veto") u64 keep_bogons_out(const struct route *r)
{
	u32 i;

	if (r->kind != EXTERNAL_1 && r->kind != EXTERNAL_2)
		return 0;
	if (r->length == 0)
		return 0;

	for (i = 0; i < BOGONS; i++) {
		const struct block *b = &bogons[i];

		if (r->length >= b->length) {
			if (FIRST(r->prefix, b->length) == FIRST(b->prefix, b->length)) {
				counter_add(112 + i, 1);
				return 1;
			}
		} else if (FIRST(r->prefix, r->length) == FIRST(b->prefix, r->length)) {
			counter_add(125, 1);
			return 1;
		}
	}
	return 0;
}
