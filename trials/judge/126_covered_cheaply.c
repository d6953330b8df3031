/* Keeps out external routes that a shorter prefix in the table covers at no higher cost. */
#include "leafrunt.h"

#define SHORTEST 8
#define COUNTERS 80
#define LOOPBACKS ADDRESS(10, 255, 0, 0)

static inline u32 mask_of(u32 length)
{
	return 0xffffffffu << (32 - length);
}

static inline int external(const struct route *r)
{
	return r->kind == EXTERNAL_1 || r->kind == EXTERNAL_2;
}

static inline int loopback(const struct route *r)
{
	return r->length == 32 && WITHIN(r->prefix, 32, LOOPBACKS, 16);
}

SEC("veto") u64 covered_cheaply(const struct route *r)
{
	u32 length;

	if (!external(r) || loopback(r))
		return 0;

	for (length = 31; length >= SHORTEST; length--) {
		u64 cost;

		if (length >= r->length)
			continue;
		cost = table_cost(r->prefix & mask_of(length), length);
		if (cost == NO_ROW)
			continue;
		if (cost <= r->cost) {
			counter_add(COUNTERS + length, 1);
			return 1;
		}
	}
	return 0;
}
