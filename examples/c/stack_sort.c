/* hook: price
 * An array on the stack, and no loop that is left: the middle one of the costs of three rows. */
#include "leafrunt.h"

u64 program(const struct destination *asked)
{
	u32 metric = asked->metric;
	u64 costs[3];
	costs[0] = table_cost(ADDRESS(10, 1, 0, 0), 16);
	costs[1] = table_cost(ADDRESS(10, 2, 0, 0), 16);
	costs[2] = table_cost(ADDRESS(10, 3, 0, 0), 16);
#define ORDER(a, b) if (costs[a] > costs[b]) { u64 other = costs[a]; costs[a] = costs[b]; costs[b] = other; }
	ORDER(0, 1)
	ORDER(1, 2)
	ORDER(0, 1)
	return costs[1] == NO_ROW ? metric : costs[1] & 0xffffff;
}
