/* A hash table of neighbours, with the moment that each was seen last. */
#include "leafrunt.h"

#define PLACES 32
#define PROBES 8
#define AWAY 120
#define FORGOTTEN 3600

enum { NEW = 140, BACK = 141, NO_PLACE = 142 };

static inline u32 hash(u32 router)
{
	return router * 2654435761u >> 27;
}

static inline u64 place_of(u32 router, u32 now)
{
	return (u64)router << 32 | now;
}

SEC("count") u64 neighbour_table(const struct datagram *d)
{
	u64 *table = cells();
	u32 router = d->router, now = d->moment;
	u32 start = hash(router);
	int free = -1;

	if (router == 0)
		return 0;

	for (int i = 0; i < PROBES; i++) {
		u32 at = (start + i) % PLACES;
		u32 seen = table[at];

		if (table[at] >> 32 == router) {
			if (now - seen >= AWAY)
				counter_add(BACK, 1);
			table[at] = place_of(router, now);
			return 0;
		}
		if (free < 0 && (table[at] == 0 || now - seen >= FORGOTTEN))
			free = at;
	}

	if (free < 0) {
		counter_add(NO_PLACE, 1);
		return 0;
	}
	counter_add(NEW, 1);
	table[free] = place_of(router, now);
	return 0;
}
