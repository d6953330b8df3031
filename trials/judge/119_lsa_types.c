/* Counts the LSAs of updates by their LS type. */
#include "leafrunt.h"

#define FIRST_LSA 28
#define LSA_HEADER 20
#define MOST_LSAS 32

enum { OTHER_TYPES = 0, BAD_LENGTH = 8, TOO_FEW = 9 };

static inline u32 half(u32 at)
{
	return packet_byte(at) << 8 | packet_byte(at + 1);
}

static inline u32 word(u32 at)
{
	return half(at) << 16 | half(at + 2);
}

SEC("count") u64 lsa_types(const struct datagram *d)
{
	u32 lsas, at, i;

	if (d->type != UPDATE || d->length < FIRST_LSA)
		return 0;
	lsas = word(24);
	at = FIRST_LSA;
	for (i = 0; i < MOST_LSAS && i < lsas; i++) {
		u32 type, length;

		if (at + LSA_HEADER > d->length) {
			counter_add(TOO_FEW, 1);
			return 0;
		}
		type = packet_byte(at + 3);
		length = half(at + 18);
		if (length < LSA_HEADER || at + length > d->length) {
			counter_add(BAD_LENGTH, 1);
			return 0;
		}
		if (type >= 1 && type <= 7)
			counter_add(type, 1);
		else
			counter_add(OTHER_TYPES, 1);
		at += length;
	}
	return 0;
}
