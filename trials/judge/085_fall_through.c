#include "leafrunt.h"

SEC("price") u64 fall_through(const struct destination *d)
{
	u32 metric = d->metric;

	switch (d->tag) {
	case 3:
		metric += 100;
		/* fall through */
	case 2:
		metric += 10;
		/* fall through */
	case 1:
		metric += 1;
		break;
	default:
		break;
	}
	return metric;
}
