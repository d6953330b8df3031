#include "leafrunt.h"

SEC("tag") u64 packed_decimal(const struct destination *d)
{
	u32 n = d->metric;
	u32 packed = 0;

	for (int shift = 0; shift < 32; shift += 4) {
		packed |= n % 10 << shift;
		n /= 10;
	}
	return packed;
}
