/* hook: tag
 * A table in the program: tags by block, the most specific first. */
#include "leafrunt.h"

#define TAGS(ROW)			\
	ROW(10, 1, 0, 0, 16, 101)	\
	ROW(10, 2, 0, 0, 16, 102)	\
	ROW(10, 0, 0, 0, 8, 100)	\
	ROW(192, 168, 0, 0, 16, 200)	\
	ROW(0, 0, 0, 0, 1, 1)

#define TAG_IF(a, b, c, d, bits, tag)	\
	if (WITHIN(prefix, length, ADDRESS(a, b, c, d), bits)) return tag;

u64 program(const struct destination *asked)
{
	u32 prefix = asked->prefix, length = asked->length;
	TAGS(TAG_IF)
	return asked->tag;
}
