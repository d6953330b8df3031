/* hook: count
 * The same by halving: 32-bit arithmetic, no loop. */
#include "leafrunt.h"

u64 program(const struct datagram *packet)
{
	u32 length = packet->length, log = 0;
	if (length >> 16) { log += 16; length >>= 16; }
	if (length >> 8) { log += 8; length >>= 8; }
	if (length >> 4) { log += 4; length >>= 4; }
	if (length >> 2) { log += 2; length >>= 2; }
	if (length >> 1) log += 1;
	return counter_add(32 + log, 1);
}
