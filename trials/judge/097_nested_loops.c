#include "leafrunt.h"

SEC("count") u64 nested_loops(const struct datagram *d)
{
	u8 column[4] = { 0, 0, 0, 0 };
	u64 *kept_at = cells() + 12;
	int i, j;

	if (d->length < 24)
		return 0;
	for (i = 0; i < 6; i++)
		for (j = 0; j < 4; j++)
			column[j] ^= packet_byte(4 * i + j);
	for (j = 0; j < 4; j++)
		kept_at[j] = column[j];
	return 0;
}
