#include "leafrunt.h"

SEC("count") u64 saturating_counter(const struct datagram *d)
{
	u64 *state = cells() + 23;
	int predicted = *state >= 2;
	int hello = d->type == HELLO;

	if (predicted != hello)
		counter_add(216, 1);
	if (hello) {
		if (*state < 3)
			++*state;
	} else {
		if (*state > 0)
			--*state;
	}
	return 0;
}
