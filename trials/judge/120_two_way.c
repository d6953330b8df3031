/* Looks for our own Router ID among the neighbours that a Hello lists. */
#include "leafrunt.h"

#define US ADDRESS(10, 0, 0, 1)
#define NEIGHBOURS 44
#define MOST 50

static inline u32 word(u32 at)
{
	u32 number = 0;

	for (int i = 0; i < 4; i++)
		number = number << 8 | packet_byte(at + i);
	return number;
}

SEC("count") u64 two_way(const struct datagram *d)
{
	u64 *c = cells();
	u32 end, i;
	u32 last = 0, listed = 0, repeated = 0;
	int found = 0;

	if (d->type != HELLO || d->length < NEIGHBOURS)
		return 0;
	end = packet_byte(2) << 8 | packet_byte(3);
	if (end > d->length)
		end = d->length;
	for (i = 0; i < MOST; i++) {
		u32 at = NEIGHBOURS + 4 * i;
		u32 neighbour;

		if (at + 4 > end)
			break;
		neighbour = word(at);
		if (neighbour == US)
			found = 1;
		if (i > 0 && neighbour == last)
			repeated++;
		last = neighbour;
		listed++;
	}
	if (found)
		counter_add(20, 1);
	else
		counter_add(21, 1);
	counter_add(22, listed);
	counter_add(23, repeated);
	if (listed > c[0])
		c[0] = listed;
	return 0;
}
