#include "leafrunt.h"

static inline int compare(const char *password)
{
	for (int i = 0; i < 8; i++) {
		int difference = (int)packet_byte(16 + i) - (u8)password[i];
		if (difference != 0)
			return difference;
	}
	return 0;
}

SEC("count") u64 compare_password(const struct datagram *d)
{
	if (packet_byte(14) != 0 || packet_byte(15) != 1)
		return 0;
	if (compare("leafrunt") == 0)
		counter_add(208, 1);
	else
		counter_add(209, 1);
	return 0;
}
