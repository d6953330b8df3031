/* A price policy by tags in the form AS:action. */
#include "leafrunt.h"

#define OUR_AS 65000
#define WITHHELD 16777215
#define LAST_RESORT 16777214

enum { PREPENDED = 160, LAST, AT_NIGHT, WITHHOLDING, SET, FOREIGN };

static inline int night(u64 moment)
{
	u32 hour = moment / 3600 % 24;

	return hour >= 22 || hour < 6;
}

static inline u64 at_most(u64 metric, u64 limit)
{
	return metric < limit ? metric : limit;
}

SEC("price") u64 policy_by_tag(const struct destination *d)
{
	u32 as = d->tag >> 16;
	u32 action = d->tag & 0xffff;

	if (d->metric >= WITHHELD || as == 0)
		return d->metric;
	if (as != OUR_AS) {
		counter_add(FOREIGN, 1);
		return d->metric < 1000 ? 1000 : d->metric;
	}

	switch (action) {
	case 1:
	case 2:
	case 3:
		counter_add(PREPENDED, 1);
		return at_most(d->metric + 100 * action, LAST_RESORT);
	case 10:
		counter_add(LAST, 1);
		return LAST_RESORT;
	case 20:
		counter_add(AT_NIGHT, 1);
		return night(d->moment) ? WITHHELD : d->metric;
	case 30:
		counter_add(WITHHOLDING, 1);
		return WITHHELD;
	}
	if (action >= 100 && action <= 199) {
		counter_add(SET, 1);
		return 10 * (action % 100) + 1;
	}
	return d->metric;
}
