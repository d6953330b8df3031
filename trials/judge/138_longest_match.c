/* Tags by the longest prefix of a table that holds the destination. */
#include "leafrunt.h"

#define ENTRIES 12
#define FIRST_COUNTER 240
#define NO_MATCH 252

struct entry {
	u32 prefix;
	u32 length;
	u32 tag;
};

static const struct entry table[ENTRIES] = {
	{ ADDRESS(10, 0, 0, 0), 8, 100 },
	{ ADDRESS(10, 1, 0, 0), 16, 110 },
	{ ADDRESS(10, 1, 128, 0), 17, 111 },
	{ ADDRESS(10, 2, 0, 0), 16, 120 },
	{ ADDRESS(10, 2, 3, 0), 24, 123 },
	{ ADDRESS(172, 16, 0, 0), 12, 200 },
	{ ADDRESS(172, 20, 0, 0), 14, 220 },
	{ ADDRESS(192, 168, 0, 0), 16, 300 },
	{ ADDRESS(192, 168, 7, 0), 24, 307 },
	{ ADDRESS(192, 168, 7, 64), 26, 308 },
	{ ADDRESS(203, 0, 113, 0), 24, 400 },
	{ ADDRESS(203, 0, 113, 0), 24, 401 },
};

SEC("tag") u64 longest_match(const struct destination *d)
{
	u32 longest = 0;
	u32 tag = d->tag != 0 ? d->tag : 1;
	int match = -1;

	for (int i = 0; i < ENTRIES; i++) {
		if (!WITHIN(d->prefix, d->length, table[i].prefix, table[i].length))
			continue;
		if (table[i].length >= longest) {
			longest = table[i].length;
			match = i;
		}
	}

	if (match < 0) {
		counter_add(NO_MATCH, 1);
		return tag;
	}
	counter_add(FIRST_COUNTER + match, 1);
	tag = table[match].tag;
	if (d->type == 2)
		tag += 10000;
	return tag;
}
