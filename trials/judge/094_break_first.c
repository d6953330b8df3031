#include "leafrunt.h"

SEC("count") u64 break_first(const struct datagram *d)
{
	u32 i;

	for (i = 0; i < 64; i++) {
		if (packet_byte(i) == 0)
			break;
	}
	if (i < 8)
		counter_add(205, 1);
	else
		counter_add(206, 1);
	return 0;
}
