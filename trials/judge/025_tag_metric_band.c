#include "leafrunt.h"

enum { GOLD = 10, SILVER = 20, BRONZE = 30 };

SEC("tag") u64 tag_metric_band(const struct destination *d)
{
	if (d->metric < 100)
		return GOLD;
	else if (d->metric < 1000)
		return SILVER;
	else
		return BRONZE;
}
