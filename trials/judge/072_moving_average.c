#include "leafrunt.h"

#define WEIGHT 8

SEC("count") u64 moving_average(const struct datagram *d)
{
	u64 *average = cells() + 8;

	if (*average == 0)
		*average = (u64)d->length * WEIGHT;
	else
		*average = *average - *average / WEIGHT + d->length;
	return 0;
}
