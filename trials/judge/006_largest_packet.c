#include "leafrunt.h"

SEC("count") u64 largest_packet(const struct datagram *d)
{
	u64 *c = cells();

	if (d->length > c[0]) {
		c[0] = d->length;
		c[1] = d->moment;
	}
	return 0;
}
