/* Verifies the Fletcher checksum of the first LSA of each update. */
#include "leafrunt.h"

#define LSA 28
#define LSA_HEADER 20
#define LONGEST 400

enum { RIGHT = 70, WRONG, NOT_VERIFIED };

struct sums {
	u32 c0, c1;
};

static inline void add(struct sums *s, u32 byte)
{
	s->c0 = (s->c0 + byte) % 255;
	s->c1 = (s->c1 + s->c0) % 255;
}

SEC("count") u64 lsa_checksum(const struct datagram *d)
{
	struct sums sums = { 0, 0 };
	u32 length;

	if (d->type != UPDATE)
		return 0;
	if (d->length < LSA + LSA_HEADER) {
		counter_add(NOT_VERIFIED, 1);
		return 0;
	}
	length = packet_byte(LSA + 18) << 8 | packet_byte(LSA + 19);
	if (length < LSA_HEADER || length > LONGEST || LSA + length > d->length) {
		counter_add(NOT_VERIFIED, 1);
		return 0;
	}

	/* The age, the first two bytes, isn't covered. */
	for (u32 i = 2; i < LONGEST; i++) {
		if (i >= length)
			break;
		add(&sums, packet_byte(LSA + i));
	}

	if (sums.c0 == 0 && sums.c1 == 0)
		counter_add(RIGHT, 1);
	else
		counter_add(WRONG, 1);
	return 0;
}
