#include "leafrunt.h"

SEC("tag") u64 address_class(const struct destination *d)
{
	switch (d->prefix >> 28) {
	case 0: case 1: case 2: case 3:
	case 4: case 5: case 6: case 7:
		return 'A';
	case 8: case 9: case 10: case 11:
		return 'B';
	case 12: case 13:
		return 'C';
	case 14:
		return 'D';
	default:
		return 'E';
	}
}
