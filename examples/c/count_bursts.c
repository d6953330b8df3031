/* hook: count
 * Counts by Router ID what comes above 100 packets in one second: counter 128 + the ID's low five bits. */
#include "leafrunt.h"

u64 program(const struct datagram *packet)
{
	u64 group = packet->router & 31;
	u64 *second = cells() + 2 * group;
	u64 *count = second + 1;
	if (*second != packet->moment) {
		*second = packet->moment;
		*count = 0;
	}
	*count += 1;
	if (*count > 100)
		counter_add(128 + group, 1);
	return 0;
}
