/* hook: count
 * A Bloom filter of Router IDs: a worker's 64 cells are 4,096 bits, of which an ID sets two. Counter 20 has how many
 * IDs were seen for the first time, by each worker of its own. */
#include "leafrunt.h"

static inline u64 mark(u64 bit)
{
	u64 *word = cells() + (bit >> 6 & 63);
	u64 mask = 1ull << (bit & 63);
	u64 was = *word & mask;
	*word |= mask;
	return !was;
}

u64 program(const struct datagram *packet)
{
	u32 hash = packet->router * 0x9e3779b1u;
	u64 is_new = mark(hash >> 20);
	is_new |= mark(hash >> 8 & 4095);
	if (is_new)
		counter_add(20, 1);
	return 0;
}
