/* hook: count
 * A loop that counts up to a number that isn't known: the sum of the packet's bytes, 64 of them at most,
 * with 32-bit arithmetic. Counter 200 has the packets whose sum is a multiple of 256. */
#include "leafrunt.h"

u64 program(const struct datagram *packet)
{
	u64 length = packet->length > 64 ? 64 : packet->length;
	u32 sum = 0;
	EACH(i, length)
		sum += (u32)packet_byte(i);
	if (sum % 256 == 0)
		counter_add(200, 1);
	return sum;
}
