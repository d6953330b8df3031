/* Raises prices where few interfaces carry most of the load. */
#include "leafrunt.h"

#define FIRST_COUNTER 128
#define INTERFACES 16
#define BUSIEST 4
#define WITHHELD 16777215

SEC("price") u64 load_price(const struct destination *d)
{
	u64 load[INTERFACES];
	u64 sum = 0, greatest = 0, four = 0;
	u64 metric = d->metric;
	int i, j;

	if (metric >= WITHHELD)
		return WITHHELD;

	for (i = 0; i < INTERFACES; i++) {
		load[i] = counter_read(FIRST_COUNTER + i);
		sum += load[i];
	}

	/* The four busiest come to the front, the busiest first. */
	for (i = 0; i < BUSIEST; i++) {
		int busiest = i;
		u64 swapped;

		for (j = i + 1; j < INTERFACES; j++)
			if (load[j] > load[busiest])
				busiest = j;
		swapped = load[i];
		load[i] = load[busiest];
		load[busiest] = swapped;
		four += load[i];
	}
	greatest = load[0];

	if (sum > 1000 && greatest * 2 > sum)
		metric += 200;
	else if (four * 10 > sum * 9)
		metric += 50;

	if (metric >= WITHHELD)
		metric = WITHHELD - 1;
	return metric;
}
