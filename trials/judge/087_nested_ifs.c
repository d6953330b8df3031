#include "leafrunt.h"

SEC("veto") u64 nested_ifs(const struct route *r)
{
	if (r->kind == EXTERNAL_2) {
		if (r->tag != 0) {
			if (r->cost > 100)
				return 1;
		} else {
			if (r->cost > 50)
				return 1;
		}
	} else if (r->kind == EXTERNAL_1) {
		if (r->length > 24) {
			if (r->next_hops == 1)
				return 1;
		}
	}
	return 0;
}
