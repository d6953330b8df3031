#include "leafrunt.h"

SEC("price") u64 fibonacci(const struct destination *d)
{
	u32 a = 0, b = 1;

	for (u32 i = 0; i < 32; i++) {
		if (i == d->length)
			break;
		u32 sum = a + b;
		a = b;
		b = sum;
	}
	return d->metric + a;
}
