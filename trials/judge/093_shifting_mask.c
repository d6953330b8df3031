#include "leafrunt.h"

SEC("tag") u64 shifting_mask(const struct destination *d)
{
	u32 differ = d->prefix ^ d->prefix >> 1;
	u32 mask;
	u32 n = 0;

	for (mask = 1u << 30; mask != 0; mask >>= 1)
		if (differ & mask)
			n++;
	return n;
}
