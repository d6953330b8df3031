/* Three programs in one file, each for the hook that SEC names: docs/use/HOOKTOOL.md, "build". */
#include "leafrunt.h"
SEC("veto") u64 long_prefixes(const struct route *asked) { return asked->length > 24; }
SEC("tag") u64 by_length(const struct destination *asked) { return asked->length; }
