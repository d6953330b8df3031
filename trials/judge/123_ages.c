/* The ages of the LSA headers in database descriptions and acknowledgments. */
#include "leafrunt.h"

#define LSA_HEADER 20
#define MOST 70
#define MAX_AGE 3600
#define DO_NOT_AGE 0x8000

static inline u32 class_of(u32 age)
{
	if (age < 300)
		return 0;
	if (age < 900)
		return 1;
	if (age < 1800)
		return 2;
	if (age < MAX_AGE)
		return 3;
	if (age == MAX_AGE)
		return 4;
	return 5;
}

SEC("count") u64 ages(const struct datagram *d)
{
	u32 first, end, i;

	switch (d->type) {
	case DATABASE_DESCRIPTION:
		first = 32;
		break;
	case ACKNOWLEDGMENT:
		first = 24;
		break;
	default:
		return 0;
	}

	end = packet_byte(2) << 8 | packet_byte(3);
	if (end > d->length)
		end = d->length;

	for (i = 0; i < MOST; i++) {
		u32 at = first + i * LSA_HEADER;
		u32 age;

		if (at + LSA_HEADER > end)
			break;
		age = packet_byte(at) << 8 | packet_byte(at + 1);
		if (age & DO_NOT_AGE) {
			counter_add(56, 1);
			age &= ~DO_NOT_AGE;
		}
		counter_add(50 + class_of(age), 1);
	}
	return 0;
}
