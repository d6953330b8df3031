/* hook: count
 * A loop that counts up, with a way out: where the packet's first zero byte stands, among the first 100. */
#include "leafrunt.h"

u64 program(const struct datagram *packet)
{
	EACH(i, 100) {
		u64 byte = packet_byte(i);
		if (byte == 256)
			break;
		if (byte == 0)
			return counter_add(i, 1);
	}
	return counter_add(255, 1);
}
