#include "leafrunt.h"

SEC("tag") u64 leading_zeros(const struct destination *d)
{
	u32 x = d->metric;
	u32 n = 0;

	if (x == 0)
		return 32;
	if (x <= 0x0000ffff) {
		n += 16;
		x <<= 16;
	}
	if (x <= 0x00ffffff) {
		n += 8;
		x <<= 8;
	}
	if (x <= 0x0fffffff) {
		n += 4;
		x <<= 4;
	}
	if (x <= 0x3fffffff) {
		n += 2;
		x <<= 2;
	}
	if (x <= 0x7fffffff)
		n += 1;
	return n;
}
