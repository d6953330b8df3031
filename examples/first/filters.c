/* The two programs of ./demo and of docs/use/TUTORIAL.md. */
#include "leafrunt.h"

/* Counts packets by their type (RFC 2328, A.3.1). */
SEC("count") u64 count_types(const struct datagram *packet)
{
	return counter_add(packet->type & 7, 1);
}

/* Keeps routes to prefixes longer than /24 out of the table. */
SEC("veto") u64 no_long_prefixes(const struct route *route)
{
	return route->length > 24;
}
