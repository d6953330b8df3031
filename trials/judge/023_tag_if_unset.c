#include "leafrunt.h"

#define SITE 65001

SEC("tag") u64 tag_if_unset(const struct destination *d)
{
	return d->tag ? d->tag : SITE;
}
