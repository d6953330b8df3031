#include "leafrunt.h"

SEC("count") u64 count_bits(const struct datagram *d)
{
	u32 x = d->router;
	u32 bits;

	for (bits = 0; bits < 32 && x != 0; bits++)
		x &= x - 1;
	counter_add(160 + bits, 1);
	return 0;
}
