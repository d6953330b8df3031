#include "leafrunt.h"

SEC("tag") u64 reverse_bits(const struct destination *d)
{
	u32 in = d->prefix, out = 0;
	int i;

	for (i = 0; i < 32; i++) {
		out = out << 1 | (in & 1);
		in >>= 1;
	}
	return out;
}
