/* hook: veto
 * A test of prefixes: of 10.20.0.0/14 only whole /24s and host routes whose last byte is odd come in. */
#include "leafrunt.h"

u64 program(const struct route *route)
{
	if (!WITHIN(route->prefix, route->length, ADDRESS(10, 20, 0, 0), 14))
		return 0;
	if (route->length == 24)
		return 0;
	return !(route->length == 32 && (route->prefix & 1));
}
