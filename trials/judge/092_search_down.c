#include "leafrunt.h"

SEC("count") u64 search_down(const struct datagram *d)
{
	int i;

	for (i = 63; i >= 0; i--) {
		u64 byte = packet_byte(i);
		if (byte != 0 && byte != 256)
			break;
	}
	cells()[10] = i >= 0 ? i : 64;
	return 0;
}
