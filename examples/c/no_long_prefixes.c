/* hook: veto
 * Keeps prefixes longer than /24 out of the routing table. */
#include "leafrunt.h"

u64 program(const struct route *route)
{
	return route->length > 24;
}
