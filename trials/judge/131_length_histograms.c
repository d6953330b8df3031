/* Histograms of the lengths of packets, one for each type. */
#include "leafrunt.h"

#define TYPES 5
#define CLASSES 8

static inline u32 class_of(u32 length)
{
	static const u16 upper[CLASSES - 1] = { 44, 64, 128, 256, 512, 1024, 1500 };
	u32 i;

	for (i = 0; i < CLASSES - 1; i++)
		if (length <= upper[i])
			break;
	return i;
}

static inline void extremes(u64 *smallest, u64 *largest, u64 length)
{
	if (*smallest == 0 || length < *smallest)
		*smallest = length;
	if (length > *largest)
		*largest = length;
}

SEC("count") u64 length_histograms(const struct datagram *d)
{
	u64 *c = cells();
	u32 type = d->type;

	if (type < HELLO || type > TYPES)
		return 0;
	counter_add((type - 1) * CLASSES + class_of(d->length), 1);
	extremes(&c[2 * type], &c[2 * type + 1], d->length);
	if (d->length % 4 != 0)
		counter_add(40 + type, 1);
	return 0;
}
