/* A token bucket for each interface, with a penalty for those that overrun it. */
#include "leafrunt.h"

#define INTERFACES 16
#define RATE 10			/* tokens in a second */
#define DEPTH 100
#define PENALTY 5		/* seconds */

enum { OVERRUN = 130, PENALISED = 131 };

struct bucket {
	u64 tokens;
	u64 times;		/* the end of the penalty, and in the low half the last moment */
};

static inline u64 refill(u64 tokens, u64 seconds)
{
	if (seconds > DEPTH / RATE)
		return DEPTH;
	tokens += seconds * RATE;
	return tokens > DEPTH ? DEPTH : tokens;
}

SEC("count") u64 token_bucket(const struct datagram *d)
{
	struct bucket *buckets = (void *)cells();
	struct bucket *b;
	u32 now = d->moment, last, penalty;

	if (d->interface >= INTERFACES)
		return 0;
	b = &buckets[d->interface];
	last = b->times;
	penalty = b->times >> 32;

	if (last == 0)
		b->tokens = DEPTH;
	else if (now > last)
		b->tokens = refill(b->tokens, now - last);

	if (penalty > now) {
		counter_add(PENALISED, 1);
	} else if (b->tokens == 0) {
		counter_add(OVERRUN, 1);
		penalty = now + PENALTY;
	} else {
		b->tokens--;
	}
	b->times = (u64)penalty << 32 | now;
	return 0;
}
