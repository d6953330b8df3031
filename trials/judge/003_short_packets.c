#include "leafrunt.h"

#define HEADER 24
#define MTU 1500

SEC("count") u64 short_packets(const struct datagram *d)
{
	if (d->length < HEADER)
		counter_add(20, 1);
	if (d->length > MTU)
		counter_add(21, 1);
	return 0;
}
