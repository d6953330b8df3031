#include "leafrunt.h"

SEC("count") u64 unknown_routers(const struct datagram *d)
{
	switch (d->router) {
	case ADDRESS(10, 0, 0, 1):
	case ADDRESS(10, 0, 0, 2):
	case ADDRESS(10, 0, 0, 3):
	case ADDRESS(10, 0, 0, 9):
		break;
	default:
		counter_add(31, 1);
	}
	return 0;
}
