#include "leafrunt.h"

SEC("tag") u64 do_while(const struct destination *d)
{
	u64 n = d->metric;
	u32 steps = 0;

	if (n <= 1)
		return 0;
	do {
		if (n % 2 == 0)
			n /= 2;
		else
			n = 3 * n + 1;
		steps++;
	} while (n != 1 && steps < 100);
	return steps;
}
