/* hook: price
 * Helper 4 in a loop that counts down: the cost of the longest prefix of the table that covers the
 * destination, added to its metric. */
#include "leafrunt.h"

u64 program(const struct destination *asked)
{
	u32 prefix = asked->prefix, metric = asked->metric;
	u64 start = asked->length > 32 ? 32 : asked->length;
	DOWN(length, start) {
		u64 cost = table_cost(prefix & (0xffffffffu << (32 - length)), length);
		if (cost != NO_ROW) {
			u64 sum = metric + cost;
			return sum > 16777214 ? 16777214 : sum;
		}
	}
	return metric;
}
