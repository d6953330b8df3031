#include "leafrunt.h"

union external_tag {
	u32 number;
	struct {
		u32 as : 16;
		u32 arbitrary : 12;
		u32 path_length : 2;
		u32 complete : 1;
		u32 automatic : 1;
	} field;
};

SEC("tag") u64 bit_fields(const struct destination *d)
{
	union external_tag tag = { .number = d->tag };

	if (tag.field.path_length < 3)
		tag.field.path_length++;
	tag.field.as = 64500;
	return tag.number;
}
