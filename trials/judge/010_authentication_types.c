#include "leafrunt.h"

SEC("count") u64 authentication_types(const struct datagram *d)
{
	u64 type = packet_byte(14) << 8 | packet_byte(15);

	switch (type) {
	case 0:
		counter_add(26, 1);
		break;
	case 1:
		counter_add(27, 1);
		break;
	case 2:
		counter_add(28, 1);
		break;
	default:
		counter_add(29, 1);
	}
	return 0;
}
