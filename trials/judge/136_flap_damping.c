/* Keeps flapping external routes out until they have been quiet for a while. */
#include "leafrunt.h"

#define BUCKETS 32
#define FLAP 1000
#define SUPPRESS 3000
#define REUSE 750
#define HALF_LIFE 60
#define HIGHEST 20000
#define SUPPRESSIONS 255

/* The counters of a bucket. */
#define COST(b) (b)
#define PENALTY(b) (BUCKETS + (b))
#define MOMENT(b) (2 * BUCKETS + (b))
#define SUPPRESSED(b) (3 * BUCKETS + (b))

static inline u32 bucket_of(u32 prefix, u32 length)
{
	u32 hash = prefix * 2654435761u + length * 40503;

	return (hash ^ hash >> 16) % BUCKETS;
}

SEC("veto") u64 flap_damping(const struct route *r)
{
	u32 b = bucket_of(r->prefix, r->length);
	u64 cost = r->cost & 0xffffff;
	u64 now = r->moment & 0xffffff;
	u64 then = kept(MOMENT(b));
	u64 penalty = kept(PENALTY(b));
	u64 suppressed = kept(SUPPRESSED(b));

	if (r->kind != EXTERNAL_1 && r->kind != EXTERNAL_2)
		return 0;

	if (then == 0) {
		/* The first route that is asked about. */
		then = now;
		keep(COST(b), cost);
	}
	for (int i = 0; i < 16; i++) {
		if (((now - then) & 0xffffff) < HALF_LIFE)
			break;
		penalty /= 2;
		then = (then + HALF_LIFE) & 0xffffff;
	}
	if (penalty == 0)
		then = now;

	if (kept(COST(b)) != cost) {
		penalty += FLAP;
		if (penalty > HIGHEST)
			penalty = HIGHEST;
		keep(COST(b), cost);
	}
	if (penalty >= SUPPRESS && !suppressed) {
		suppressed = 1;
		counter_add(SUPPRESSIONS, 1);
	} else if (penalty < REUSE) {
		suppressed = 0;
	}

	keep(PENALTY(b), penalty);
	keep(MOMENT(b), then);
	keep(SUPPRESSED(b), suppressed);
	return suppressed;
}
