/* Follows one neighbour through the states of RFC 2328, 10.1, by what it sends. */
#include "leafrunt.h"

#define NEIGHBOUR ADDRESS(10, 0, 0, 2)
#define US ADDRESS(10, 0, 0, 1)
#define DEAD 40

enum state { DOWN, INIT, TWO_WAY, EX_START, EXCHANGE, LOADING, FULL };

enum { MORE = 2, INITIAL = 4 };		/* bits of byte 27 of a database description */

struct adjacency {
	u64 state, moment;
};

static inline u32 word(u32 at)
{
	return packet_byte(at) << 24 | packet_byte(at + 1) << 16 | packet_byte(at + 2) << 8 | packet_byte(at + 3);
}

static inline int lists_us(const struct datagram *d)
{
	if (d->length >= 48 && word(44) == US)
		return 1;
	if (d->length >= 52 && word(48) == US)
		return 1;
	return 0;
}

static inline enum state next(enum state s, const struct datagram *d)
{
	u64 flags;

	switch (d->type) {
	case HELLO:
		if (!lists_us(d))
			return INIT;
		return s < TWO_WAY ? TWO_WAY : s;
	case DATABASE_DESCRIPTION:
		flags = packet_byte(27);
		if (s < TWO_WAY)
			return s;
		if (flags & INITIAL)
			return EX_START;
		if (flags & MORE)
			return s == EX_START ? EXCHANGE : s;
		return s == EX_START || s == EXCHANGE ? LOADING : s;
	case REQUEST:
		return s == EXCHANGE ? LOADING : s;
	case UPDATE:
	case ACKNOWLEDGMENT:
		return s == LOADING ? FULL : s;
	}
	return s;
}

SEC("count") u64 adjacency(const struct datagram *d)
{
	struct adjacency *a = (struct adjacency *)cells();
	enum state old, new;

	if (d->router != NEIGHBOUR)
		return 0;
	old = a->state;
	if (old != DOWN && d->moment - a->moment >= DEAD) {
		counter_add(150 + DOWN, 1);
		counter_add(157, 1);
		old = DOWN;
	}
	new = next(old, d);
	if (new != old)
		counter_add(150 + new, 1);
	if (new < old)
		counter_add(157, 1);
	a->state = new;
	a->moment = d->moment;
	return 0;
}
