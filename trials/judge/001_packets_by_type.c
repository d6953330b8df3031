#include "leafrunt.h"

SEC("count") u64 packets_by_type(const struct datagram *d)
{
	if (d->type >= HELLO && d->type <= ACKNOWLEDGMENT)
		counter_add(d->type, 1);
	else
		counter_add(0, 1);
	return 0;
}
