#include "leafrunt.h"

#define MIN(a, b) ((a) < (b) ? (a) : (b))
#define MAX(a, b) ((a) > (b) ? (a) : (b))
#define CLAMP(x, low, high) MIN(MAX(x, low), high)

SEC("price") u64 clamp(const struct destination *d)
{
	if (d->type == 1)
		return CLAMP(d->metric, 10u, 500u);
	return CLAMP(d->metric, 100u, 5000u);
}
