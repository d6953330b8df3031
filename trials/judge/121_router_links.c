/* The links of the first LSA of an update, where it is a Router-LSA. */
#include "leafrunt.h"

#define LSA 28
#define LINKS (LSA + 24)
#define MOST_LINKS 40

enum { BORDER = 0x01, BOUNDARY = 0x02 };	/* flags of a Router-LSA */
enum { POINT_TO_POINT = 1, TRANSIT, STUB, VIRTUAL };

static inline u32 half(u32 at)
{
	return packet_byte(at) << 8 | packet_byte(at + 1);
}

SEC("count") u64 router_links(const struct datagram *d)
{
	u64 *greatest = &cells()[1];
	u32 flags, links, at, end;

	if (d->type != UPDATE || d->length < LINKS || packet_byte(LSA + 3) != 1)
		return 0;
	end = LSA + half(LSA + 18);
	if (end > d->length)
		return 0;

	flags = packet_byte(LSA + 20);
	if (flags & BORDER)
		counter_add(35, 1);
	if (flags & BOUNDARY)
		counter_add(36, 1);

	links = half(LSA + 22);
	at = LINKS;
	for (u32 i = 0; i < MOST_LINKS; i++) {
		u32 type, metric;

		if (i >= links || at + 12 > end)
			break;
		type = packet_byte(at + 8);
		metric = half(at + 10);
		switch (type) {
		case POINT_TO_POINT:
		case TRANSIT:
		case STUB:
		case VIRTUAL:
			counter_add(30 + type, 1);
			break;
		default:
			counter_add(30, 1);
		}
		if (metric > *greatest)
			*greatest = metric;
		at += 12 + 4 * packet_byte(at + 9);
	}
	return 0;
}
