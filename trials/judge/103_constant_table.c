#include "leafrunt.h"

static const u16 surcharge[33] = {
	1000,
	900, 800, 700, 600, 500, 400, 300, 0,
	10, 10, 10, 10, 10, 10, 10, 0,
	5, 5, 5, 5, 5, 5, 5, 0,
	20, 40, 60, 80, 100, 200, 400, 50,
};

SEC("price") u64 constant_table(const struct destination *d)
{
	if (d->length > 32)
		return d->metric;
	return d->metric + surcharge[d->length];
}
