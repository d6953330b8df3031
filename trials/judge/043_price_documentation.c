#include "leafrunt.h"

SEC("price") u64 price_documentation(const struct destination *d)
{
	u32 network = d->prefix >> 8;

	if (d->length < 24)
		return d->metric;
	if (network == ADDRESS(192, 0, 2, 0) >> 8)
		return 16777215;
	if (network == ADDRESS(198, 51, 100, 0) >> 8)
		return 16777215;
	if (network == ADDRESS(203, 0, 113, 0) >> 8)
		return 16777215;
	return d->metric;
}
