/* Builds the tag of a destination out of region, class, metric and what the table has. */
#include "leafrunt.h"

struct region {
	u32 prefix, length, number;
};

static inline u32 region_of(u32 prefix, u32 length)
{
	static const struct region regions[6] = {
		{ ADDRESS(10, 0, 0, 0), 10, 1 },
		{ ADDRESS(10, 64, 0, 0), 10, 2 },
		{ ADDRESS(10, 128, 0, 0), 9, 3 },
		{ ADDRESS(172, 16, 0, 0), 12, 4 },
		{ ADDRESS(192, 168, 0, 0), 16, 5 },
		{ ADDRESS(100, 64, 0, 0), 10, 6 },
	};

	for (int i = 0; i < 6; i++)
		if (WITHIN(prefix, length, regions[i].prefix, regions[i].length))
			return regions[i].number;
	return 0;
}

static inline u32 class_of(u32 length)
{
	if (length == 0)
		return 0;
	if (length <= 16)
		return 1;
	if (length <= 24)
		return 2;
	if (length <= 31)
		return 3;
	return 4;
}

/* Eight times the logarithm: the place of the highest bit, and the three bits after it. */
static inline u32 band_of(u32 metric)
{
	u32 log = 31;

	if (metric == 0)
		return 0;
	for (int i = 0; i < 32; i++) {
		if (metric & 1u << 31)
			break;
		metric <<= 1;
		log--;
	}
	return log * 8 + (metric >> 28 & 7);
}

SEC("tag") u64 site_tags(const struct destination *d)
{
	u32 cheaper = table_cost(d->prefix, d->length) < d->metric;

	return region_of(d->prefix, d->length) << 28 |
	       class_of(d->length) << 24 |
	       band_of(d->metric) << 16 |
	       cheaper << 15 |
	       (d->tag & 0x7fff);
}
