#include "leafrunt.h"

SEC("count") u64 mtu_mismatch(const struct datagram *d)
{
	u32 mtu;

	if (d->type != DATABASE_DESCRIPTION)
		return 0;
	mtu = packet_byte(24) * 256 + packet_byte(25);
	if (mtu != 1500 && mtu != 0)
		counter_add(65, 1);
	return 0;
}
