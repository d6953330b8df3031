/* hook: count
 * The first LSA of each Update, by its type in counters 1 to 15; one that is flushed (age 3600) in counter 16
 * (RFC 2328, A.3.5 and A.4.1: the Update's LSAs begin at byte 28). */
#include "leafrunt.h"

u64 program(const struct datagram *packet)
{
	if (packet->type != UPDATE || packet->length < 48)
		return 0;
	u64 age = packet_byte(28) << 8 | packet_byte(29);
	u64 type = packet_byte(31) & 15;
	counter_add(type, 1);
	if ((age & 0x7fff) >= 3600)
		counter_add(16, 1);
	return 0;
}
