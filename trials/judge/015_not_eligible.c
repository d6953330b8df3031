#include "leafrunt.h"

SEC("count") u64 not_eligible(const struct datagram *d)
{
	if (d->type != HELLO)
		return 0;
	if (packet_byte(31) == 0)
		counter_add(67, 1);
	if (packet_byte(36) == 0 && packet_byte(37) == 0 && packet_byte(38) == 0 && packet_byte(39) == 0)
		counter_add(68, 1);
	return 0;
}
