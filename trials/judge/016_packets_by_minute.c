#include "leafrunt.h"

SEC("count") u64 packets_by_minute(const struct datagram *d)
{
	counter_add(70 + d->moment / 60 % 60, 1);
	return 0;
}
