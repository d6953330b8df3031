#include "leafrunt.h"

SEC("count") u64 sum_up(const struct datagram *d)
{
	u64 sum = 0;
	int i;

	if (d->length < 24)
		return 0;
	for (i = 0; i < 24; i++)
		sum += packet_byte(i);
	cells()[9] = sum;
	return 0;
}
