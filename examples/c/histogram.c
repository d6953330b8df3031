/* hook: count
 * A histogram of the datagrams' lengths, by powers of two: counter 16 has those up to 63, 17 up to 127, and
 * so on up to 23. */
#include "leafrunt.h"

u64 program(const struct datagram *packet)
{
	u32 length = packet->length;
	u64 bucket = 16;
	bucket += length >= 64;
	bucket += length >= 128;
	bucket += length >= 256;
	bucket += length >= 512;
	bucket += length >= 1024;
	bucket += length >= 2048;
	bucket += length >= 4096;
	return counter_add(bucket, 1);
}
