#include "leafrunt.h"

union address {
	u32 number;
	u8 byte[4];	/* the lowest first */
};

SEC("tag") u64 union_of_bytes(const struct destination *d)
{
	union address a;
	u32 sum = 0;
	int i;

	a.number = d->prefix;
	for (i = 0; i < 4; i++)
		sum += a.byte[3 - i] * (i + 1);
	return sum;
}
