#include "leafrunt.h"

SEC("count") u64 interface_packets(const struct datagram *d)
{
	if (d->interface < 32)
		counter_add(32 + d->interface, 1);
	else
		counter_add(64, 1);
	return 0;
}
