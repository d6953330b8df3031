/* hook: count
 * 32-bit arithmetic: spreads Router IDs over 64 cells by a hash (FNV-1a). */
#include "leafrunt.h"

u64 program(const struct datagram *packet)
{
	u32 hash = 2166136261u, router = packet->router;
	hash = (hash ^ (router & 255)) * 16777619u;
	hash = (hash ^ (router >> 8 & 255)) * 16777619u;
	hash = (hash ^ (router >> 16 & 255)) * 16777619u;
	hash = (hash ^ (router >> 24)) * 16777619u;
	cells()[(hash >> 16) & 63] += 1;
	return hash;
}
