/* A program that may never end, and is refused. */
#include "leafrunt.h"

SEC("veto") u64 waits(const struct route *route)
{
	while (kept(7) != 1)
		;
	return 0;
}
