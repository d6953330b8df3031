#include "leafrunt.h"

SEC("count") u64 foreign_area(const struct datagram *d)
{
	int i;

	if (d->length < 24)
		return 0;
	for (i = 8; i < 12; i++) {
		if (packet_byte(i) != 0) {
			counter_add(25, 1);
			break;
		}
	}
	return 0;
}
