#include "leafrunt.h"

static const u32 known[16] = {
	ADDRESS(10, 0, 0, 1), ADDRESS(10, 0, 0, 7), ADDRESS(10, 0, 3, 20), ADDRESS(10, 1, 0, 1),
	ADDRESS(10, 9, 8, 7), ADDRESS(10, 66, 6, 6), ADDRESS(10, 200, 0, 1), ADDRESS(100, 64, 0, 9),
	ADDRESS(172, 16, 0, 1), ADDRESS(172, 16, 40, 3), ADDRESS(172, 31, 255, 254), ADDRESS(192, 0, 2, 1),
	ADDRESS(192, 168, 0, 1), ADDRESS(192, 168, 1, 254), ADDRESS(198, 51, 100, 17), ADDRESS(203, 0, 113, 99),
};

SEC("veto") u64 binary_search(const struct route *r)
{
	int low = 0, high = 15;

	if (r->length != 32)
		return 0;
	for (int turn = 0; turn < 5 && low <= high; turn++) {
		int middle = (low + high) / 2;

		if (r->prefix == known[middle])
			return 1;
		if (r->prefix < known[middle])
			high = middle - 1;
		else
			low = middle + 1;
	}
	return 0;
}
