/* hook: count
 * Counters for each neighbor in cells: packets and bytes of 32 groups of Router IDs; every 1,000th packet
 * of a group is added to a counter that all threads share. */
#include "leafrunt.h"

u64 program(const struct datagram *packet)
{
	u64 group = packet->router & 31;
	u64 *packets = cells() + group;
	u64 *bytes = cells() + 32 + group;
	*packets += 1;
	*bytes += packet->length;
	if (*packets % 1000 == 0)
		counter_add(group, 1000);
	return 0;
}
