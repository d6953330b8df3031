#include "leafrunt.h"

SEC("tag") u64 tag_night(const struct destination *d)
{
	u32 hour = d->moment % 86400 / 3600;

	if (hour >= 22 || hour < 6)
		return 900;
	return d->tag;
}
