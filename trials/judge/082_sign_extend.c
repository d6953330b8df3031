#include "leafrunt.h"

SEC("tag") u64 sign_extend(const struct destination *d)
{
	int number = (int)(d->metric << 20) >> 20;

	return (u32)number;
}
