/* hook: count
 * A loop that clang unrolls: the packet's first 16 bytes. */
#include "leafrunt.h"

u64 program(const struct datagram *packet)
{
	u64 sum = 0;
#pragma clang loop unroll(full)
	for (int i = 0; i < 16; i++)
		sum = sum * 31 + packet_byte(i);
	return sum;
}
