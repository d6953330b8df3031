/* hook: price
 * A table in the program: a metric by the length of the prefix. */
#include "leafrunt.h"

u64 program(const struct destination *asked)
{
	switch (asked->length) {
	case 8: return 10;
	case 16: return 20;
	case 20: return 35;
	case 24: return 50;
	case 28: return 90;
	case 32: return 200;
	default: return asked->metric;
	}
}
