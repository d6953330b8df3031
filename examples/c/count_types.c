/* hook: count
 * Counts packets by their type: counter 1 Hellos to 5 Acknowledgments, 0 all other datagrams. */
#include "leafrunt.h"

u64 program(const struct datagram *packet)
{
	u64 type = packet->type;
	if (type > ACKNOWLEDGMENT)
		type = 0;
	return counter_add(type, 1);
}
