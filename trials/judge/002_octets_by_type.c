#include "leafrunt.h"

SEC("count") u64 octets_by_type(const struct datagram *d)
{
	u32 counter = 10;

	if (d->type >= 1 && d->type <= 5)
		counter += d->type;
	counter_add(counter, d->length);
	return 0;
}
