/* hook: count
 * fuel: 1000
 * Plain loops in one another: how many bits of the packet are set. */
#include "leafrunt.h"

u64 program(const struct datagram *packet)
{
	u64 set = 0;
	for (u64 i = 0; i < packet->length; i++)
		for (u64 byte = packet_byte(i); byte; byte >>= 1)
			set += byte & 1;
	return set;
}
