/* Measures packets by the second, their average and their peak. */
#include "leafrunt.h"

#define SCALE 256
#define FORGET 32		/* seconds without a packet */

struct meter {
	u64 second, packets, average, highest;
};

static inline u64 weigh(u64 average, u64 packets)
{
	return average - average / 4 + packets * SCALE / 4;
}

SEC("count") u64 rate_meter(const struct datagram *d)
{
	struct meter *m = (struct meter *)cells();
	u64 silent;

	if (m->second == 0)
		m->second = d->moment;
	if (d->moment <= m->second) {
		m->packets++;
		return 0;
	}

	/* A second is over. */
	if (m->packets >= 20 && m->packets * SCALE > 4 * m->average)
		counter_add(132, 1);
	if (m->packets > m->highest)
		m->highest = m->packets;
	m->average = weigh(m->average, m->packets);

	silent = d->moment - m->second - 1;
	if (silent > FORGET) {
		m->average = 0;
	} else {
		for (int i = 0; i < FORGET; i++) {
			if (i == silent)
				break;
			m->average = weigh(m->average, 0);
		}
	}

	m->second = d->moment;
	m->packets = 1;
	return 0;
}
