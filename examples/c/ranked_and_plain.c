/* hook: price
 * fuel: 100
 * A plain loop, whose turns are counted, and one that has a rank and stays as it is. */
#include "leafrunt.h"

u64 program(const struct destination *asked)
{
	u64 sum = 0;
	for (u64 left = asked->metric; left > 1; left = left & 1 ? left * 3 + 1 : left / 2)
		sum++;
	DOWN(length, 32)
		sum += table_cost(0, length) != NO_ROW;
	return sum;
}
