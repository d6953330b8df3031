#include "leafrunt.h"

SEC("count") u64 wrong_version(const struct datagram *d)
{
	if (packet_byte(0) != 2)
		counter_add(22, 1);
	return 0;
}
