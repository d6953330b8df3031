#include "leafrunt.h"

struct limit {
	u32 prefix, length, cost;
};

SEC("veto") u64 array_of_structs(const struct route *r)
{
	struct limit limits[4] = {
		{ ADDRESS(10, 0, 0, 0), 8, 1000 },
		{ ADDRESS(172, 16, 0, 0), 12, 500 },
		{ ADDRESS(192, 168, 0, 0), 16, 200 },
		{ ADDRESS(100, 64, 0, 0), 10, 5000 },
	};

	for (int i = 0; i < 4; i++) {
		if (WITHIN(r->prefix, r->length, limits[i].prefix, limits[i].length))
			return r->cost > limits[i].cost;
	}
	return 0;
}
