#include "leafrunt.h"

SEC("count") u64 fletcher16(const struct datagram *d)
{
	u32 a = 0, b = 0;
	u32 i;

	if (d->length < 44)
		return 0;
	for (i = 24; i < 44; i++) {
		a = (a + packet_byte(i)) % 255;
		b = (b + a) % 255;
	}
	cells()[20] = b << 8 | a;
	return 0;
}
