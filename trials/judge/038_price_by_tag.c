#include "leafrunt.h"

SEC("price") u64 price_by_tag(const struct destination *d)
{
	switch (d->tag) {
	case 100:
		return 10;
	case 200:
		return 20;
	case 300:
		return 16777215;
	default:
		return d->metric;
	}
}
