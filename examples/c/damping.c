/* hook: veto
 * Keeps out a route whose cost changes often: each change adds one to a penalty that halves each minute, and above
 * 5 the route stays out. What was seen is kept in counters, since any worker may ask (kept and keep of leafrunt.h):
 * counters 64 to 127 the last costs of 64 groups of prefixes, 128 to 191 the minutes and penalties. */
#include "leafrunt.h"

u64 program(const struct route *route)
{
	u64 group = route->prefix * 0x9e3779b1u >> 26;
	u64 minute = route->moment / 60 & 0xffff;
	u64 was = kept(128 + group);
	u64 passed = (minute - (was >> 8)) & 0xffff;
	u64 penalty = passed > 7 ? 0 : (was & 0xff) >> passed;
	if (kept(64 + group) != (route->cost & 0xffffff)) {
		keep(64 + group, route->cost);
		if (penalty < 255)
			penalty += 1;
	}
	keep(128 + group, minute << 8 | penalty);
	return penalty > 5;
}
