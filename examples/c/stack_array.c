/* hook: count
 * An array on the stack, at constant places: how many datagrams of each of four types came since the last
 * acknowledgment, which adds them to counters 100 to 103. */
#include "leafrunt.h"

u64 program(const struct datagram *packet)
{
	u64 *own = cells();
	u64 copy[4];
	own[packet->type & 7] += 1;
	if (packet->type != ACKNOWLEDGMENT)
		return 0;
	for (int i = 0; i < 4; i++) {
		copy[i] = own[1 + i];
		own[1 + i] = 0;
	}
	for (int i = 0; i < 4; i++)
		counter_add(100 + i, copy[i] & 0xffffff);
	return 0;
}
