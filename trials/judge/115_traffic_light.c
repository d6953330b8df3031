#include "leafrunt.h"

enum state { IDLE, SEEN, EXCHANGING, FULL };

SEC("count") u64 traffic_light(const struct datagram *d)
{
	u64 *cell = &cells()[22];
	enum state old = *cell;
	enum state new = old;

	switch (d->type) {
	case HELLO:
		if (packet_byte(28) == 0 && packet_byte(29) == 0)
			new = IDLE;
		else if (old == IDLE)
			new = SEEN;
		break;
	case DATABASE_DESCRIPTION:
		if (old == SEEN)
			new = EXCHANGING;
		break;
	case UPDATE:
		if (old == EXCHANGING)
			new = FULL;
		break;
	}
	if (new != old) {
		*cell = new;
		counter_add(212 + new, 1);
	}
	return 0;
}
