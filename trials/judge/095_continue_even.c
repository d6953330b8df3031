#include "leafrunt.h"

SEC("count") u64 continue_even(const struct datagram *d)
{
	u64 x = 0;

	for (int i = 0; i < 32; i++) {
		if (i % 2 == 0)
			continue;
		u64 byte = packet_byte(i);
		if (byte > 255)
			break;
		x ^= byte;
	}
	cells()[11] = x;
	return 0;
}
