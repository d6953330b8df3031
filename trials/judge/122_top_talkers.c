/* The eight routers that send most, as far as eight places can tell. */
#include "leafrunt.h"

#define PLACES 8

struct talker {
	u64 router, packets;
};

SEC("count") u64 top_talkers(const struct datagram *d)
{
	struct talker *talkers = (struct talker *)cells();
	struct talker *fewest = &talkers[0];
	int i;

	if (d->router == 0)
		return 0;

	for (i = 0; i < PLACES; i++) {
		struct talker *t = &talkers[i];

		if (t->router == d->router) {
			t->packets++;
			return 0;
		}
		if (t->packets < fewest->packets)
			fewest = t;
	}

	/* An empty place has no packets, and so is the one with the fewest. */
	if (fewest->router != 0)
		counter_add(40, 1);
	fewest->router = d->router;
	fewest->packets++;
	return 0;
}
