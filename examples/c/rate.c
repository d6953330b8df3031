/* hook: count
 * A rate by moment: a bucket for each of 16 interfaces gains 50 tokens a second, 500 at most, and each
 * packet takes one. Counter 64 + the interface has the packets that found none. */
#include "leafrunt.h"

u64 program(const struct datagram *packet)
{
	u64 port = packet->interface & 15;
	u64 *second = cells() + 2 * port;
	u64 *tokens = second + 1;
	if (packet->moment > *second) {
		u64 passed = packet->moment - *second;
		u64 more = passed > 10 ? 500 : passed * 50;
		*tokens = *tokens + more > 500 ? 500 : *tokens + more;
		*second = packet->moment;
	}
	if (*tokens == 0)
		return counter_add(64 + port, 1);
	*tokens -= 1;
	return 0;
}
