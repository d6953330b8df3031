/* hook: count
 * Loops in one another: for each of 8 rows of 8 cells the greatest cell, and the sum of those. */
#include "leafrunt.h"

u64 program(const struct datagram *packet)
{
	u64 sum = 0;
	DOWN(row, 8) {
		u64 greatest = 0;
		DOWN(column, 8) {
			u64 cell = cells()[(row * 8 + column) & 63];
			if (cell > greatest)
				greatest = cell;
		}
		sum += greatest;
	}
	return sum;
}
