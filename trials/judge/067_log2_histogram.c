#include "leafrunt.h"

static inline u32 log2_of(u32 v)
{
	u32 r, shift;

	r = (v > 0xffff) << 4;
	v >>= r;
	shift = (v > 0xff) << 3;
	v >>= shift;
	r |= shift;
	shift = (v > 0xf) << 2;
	v >>= shift;
	r |= shift;
	shift = (v > 0x3) << 1;
	v >>= shift;
	r |= shift;
	r |= v >> 1;
	return r;
}

SEC("count") u64 log2_histogram(const struct datagram *d)
{
	counter_add(176 + log2_of(d->length), 1);
	return 0;
}
