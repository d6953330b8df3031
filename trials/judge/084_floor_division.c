#include "leafrunt.h"

static inline int floor_div(int a, int b)
{
	int quotient = a / b;

	if (a % b != 0 && (a < 0) != (b < 0))
		quotient--;
	return quotient;
}

SEC("price") u64 floor_division(const struct destination *d)
{
	return floor_div((int)d->metric - 5000, 7) + 1000;
}
