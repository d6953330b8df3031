/* hook: veto
 * Early returns: intra-area routes always, inter-area ones below a cost, external ones by their tag. */
#include "leafrunt.h"

u64 program(const struct route *route)
{
	if (route->kind == INTRA_AREA)
		return 0;
	if (route->kind == INTER_AREA)
		return route->cost >= 5000;
	if (route->next_hops == 0)
		return 1;
	if (route->tag == 666)
		return 1;
	if (route->kind == EXTERNAL_2 && route->distance > 10000)
		return 1;
	return route->tag > 65535 && route->length > 28;
}
