/* hook: veto
 * Keeps prefixes within 10.0.0.0/8, 172.16.0.0/12 and 192.168.0.0/16 (RFC 1918) out of the table. */
#include "leafrunt.h"

u64 program(const struct route *route)
{
	u32 prefix = route->prefix, length = route->length;
	return WITHIN(prefix, length, ADDRESS(10, 0, 0, 0), 8) ||
	       WITHIN(prefix, length, ADDRESS(172, 16, 0, 0), 12) ||
	       WITHIN(prefix, length, ADDRESS(192, 168, 0, 0), 16);
}
