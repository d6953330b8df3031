/* hook: count
 * fuel: 64
 * A plain loop, which counts up: `--fuel 64` lets it turn 64 times. */
#include "leafrunt.h"

u64 program(const struct datagram *packet)
{
	u64 sum = 0;
	for (u64 i = 0; i < packet->length; i++)
		sum += packet_byte(i);
	return sum;
}
