#include "leafrunt.h"

#define N 8

SEC("count") u64 insertion_sort(const struct datagram *d)
{
	u8 a[N];
	int i, j;

	if (d->length < 24)
		return 0;
	for (i = 0; i < N; i++)
		a[i] = packet_byte(16 + i);
	for (i = 1; i < N; i++) {
		u8 x = a[i];
		for (j = i; j > 0 && a[j - 1] > x; j--)
			a[j] = a[j - 1];
		a[j] = x;
	}
	cells()[17] = a[N / 2 - 1];
	return 0;
}
