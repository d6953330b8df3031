#include "leafrunt.h"

SEC("count") u64 goto_out(const struct datagram *d)
{
	u64 counter;

	if (d->type != HELLO)
		goto out;
	counter = 201;
	if (d->length < 44)
		goto bad;
	counter = 202;
	if (packet_byte(0) != 2)
		goto bad;
	counter = 203;
	if (packet_byte(8) | packet_byte(9) | packet_byte(10) | packet_byte(11))
		goto bad;
	counter = 204;
	if (packet_byte(14) | packet_byte(15))
		goto bad;
	counter = 200;
bad:
	counter_add(counter, 1);
out:
	return 0;
}
