/* hook: veto
 * A table in the program: keeps out what no router on the Internet should announce, and defaults. */
#include "leafrunt.h"

#define BLOCKS(BLOCK)			\
	BLOCK(0, 0, 0, 0, 8)		\
	BLOCK(10, 0, 0, 0, 8)		\
	BLOCK(100, 64, 0, 0, 10)	\
	BLOCK(127, 0, 0, 0, 8)		\
	BLOCK(169, 254, 0, 0, 16)	\
	BLOCK(172, 16, 0, 0, 12)	\
	BLOCK(192, 0, 0, 0, 24)		\
	BLOCK(192, 0, 2, 0, 24)		\
	BLOCK(192, 168, 0, 0, 16)	\
	BLOCK(198, 18, 0, 0, 15)	\
	BLOCK(198, 51, 100, 0, 24)	\
	BLOCK(203, 0, 113, 0, 24)	\
	BLOCK(224, 0, 0, 0, 3)

#define IS_WITHIN(a, b, c, d, bits)	\
	if (WITHIN(prefix, length, ADDRESS(a, b, c, d), bits)) return 1;

u64 program(const struct route *route)
{
	u32 prefix = route->prefix, length = route->length;
	if (length == 0)
		return 1;
	BLOCKS(IS_WITHIN)
	return 0;
}
