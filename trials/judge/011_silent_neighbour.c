#include "leafrunt.h"

SEC("count") u64 silent_neighbour(const struct datagram *d)
{
	u64 *last = &cells()[2];

	if (d->type != HELLO || d->router != ADDRESS(192, 0, 2, 1))
		return 0;
	if (*last != 0 && d->moment > *last + 40)
		counter_add(30, 1);
	*last = d->moment;
	return 0;
}
