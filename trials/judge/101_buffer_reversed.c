#include "leafrunt.h"

SEC("count") u64 buffer_reversed(const struct datagram *d)
{
	u8 buffer[8];
	u64 number = 0;
	int i, j;

	if (d->length < 24)
		return 0;
	for (i = 0; i < 8; i++)
		buffer[i] = packet_byte(16 + i);
	for (i = 0, j = 7; i < j; i++, j--) {
		u8 c = buffer[i];
		buffer[i] = buffer[j];
		buffer[j] = c;
	}
	for (i = 0; i < 8; i++)
		number = number << 8 | buffer[i];
	cells()[16] = number;
	return 0;
}
