#include "leafrunt.h"

#define HIGHEST 16777214

SEC("price") u64 price_double(const struct destination *d)
{
	u64 metric = (u64)d->metric * 2;

	return metric > HIGHEST ? HIGHEST : metric;
}
