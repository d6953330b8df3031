#include "leafrunt.h"

#define AUTOMATIC	0x80000000u
#define COMPLETE	0x40000000u
#define PATH_LENGTH(n)	((n) << 28)
#define ARBITRARY(tag)	(((tag) & 0xfff) << 16)
#define OUR_AS		64512

SEC("tag") u64 tag_automatic(const struct destination *d)
{
	return AUTOMATIC | COMPLETE | PATH_LENGTH(1) | ARBITRARY(d->tag) | OUR_AS;
}
