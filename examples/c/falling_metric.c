/* hook: price
 * Adds 23 to a metric at midnight (UTC), and 1 less each hour. */
#include "leafrunt.h"

u64 program(const struct destination *asked)
{
	u64 hour = asked->moment % 86400 / 3600;
	u64 metric = asked->metric + 23ull - hour;
	return metric > 16777214 ? 16777214 : metric;
}
