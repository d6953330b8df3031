/* hook: tag
 * Gives a destination whose configured tag is 0 the length of its prefix as its tag. */
#include "leafrunt.h"

u64 program(const struct destination *asked)
{
	return asked->tag ? asked->tag : asked->length;
}
