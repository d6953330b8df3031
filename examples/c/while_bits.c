/* hook: veto
 * A plain loop whose end isn't a count: how many bits of the prefix are set. */
#include "leafrunt.h"

u64 program(const struct route *route)
{
	u32 bits = route->prefix, set = 0;
	while (bits) {
		set += bits & 1;
		bits >>= 1;
	}
	return set > 20;
}
