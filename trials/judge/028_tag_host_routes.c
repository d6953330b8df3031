#include "leafrunt.h"

SEC("tag") u64 tag_host_routes(const struct destination *d)
{
	switch (d->length) {
	case 32:
		return 32;
	case 31:
	case 30:
		return 30;
	}
	return d->tag;
}
