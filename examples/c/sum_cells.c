/* hook: count
 * A loop that counts up: each thousandth packet adds the 32 cells that per_neighbor.c would keep, and puts
 * the sum into a cell. */
#include "leafrunt.h"

u64 program(const struct datagram *packet)
{
	u64 *own = cells();
	own[63] += 1;
	if (own[63] % 1000)
		return 0;
	u64 sum = 0;
	EACH(i, 32)
		sum += own[i];
	own[62] = sum;
	return 0;
}
