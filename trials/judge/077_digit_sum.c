#include "leafrunt.h"

SEC("tag") u64 digit_sum(const struct destination *d)
{
	u32 n = d->metric;
	u32 sum = 0;
	int i;

	for (i = 0; i < 10; i++) {
		sum += n % 10;
		n /= 10;
	}
	return sum;
}
