/* hook: price
 * From Monday to Friday, from 8 to 18 o'clock UTC, four times the metric. The first of January 1970 was a Thursday. */
#include "leafrunt.h"

u64 program(const struct destination *asked)
{
	u64 hours = asked->moment / 3600;
	u64 day = (hours / 24 + 3) % 7;	/* 0: Monday */
	u64 hour = hours % 24;
	if (day > 4 || hour < 8 || hour >= 18)
		return asked->metric;
	return (u64)asked->metric * 4;
}
