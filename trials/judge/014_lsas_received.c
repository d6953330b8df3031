#include "leafrunt.h"

SEC("count") u64 lsas_received(const struct datagram *d)
{
	u32 lsas = 0;

	if (d->type != UPDATE || d->length < 28)
		return 0;
	for (int i = 24; i < 28; i++)
		lsas = lsas << 8 | packet_byte(i);
	if (lsas <= 100)
		counter_add(66, lsas);
	return 0;
}
