/* hook: veto
 * Keeps out routes with more than four next hops, and counts them in counter 10. */
#include "leafrunt.h"

u64 program(const struct route *route)
{
	if (route->next_hops <= 4)
		return 0;
	counter_add(10, 1);
	return 1;
}
