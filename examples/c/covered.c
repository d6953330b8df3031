/* hook: veto
 * Helper 4 in a loop that counts down: keeps out what a shorter prefix of the table covers at no more
 * cost. */
#include "leafrunt.h"

u64 program(const struct route *route)
{
	u32 prefix = route->prefix, cost = route->cost;
	u64 start = route->length > 32 ? 32 : route->length;
	if (start == 0)
		return 0;
	DOWN(length, start - 1) {
		u64 covering = table_cost(prefix >> (32 - length) << (32 - length), length);
		if (covering <= cost)
			return 1;
	}
	return 0;
}
