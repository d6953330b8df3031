/* Ten programs as an operator would write them at first: plain C, with tables, loops, structs and arrays as they come, nothing
 * added for the verifier. tools/try-constructs compiles each block alone, as those of constructs.c. */

//// bogons and the longest prefix that is let in, by a table
struct block { u32 prefix, bits, longest; };
static const struct block blocks[] = {
	{ ADDRESS(0, 0, 0, 0), 8, 0 }, { ADDRESS(10, 0, 0, 0), 8, 24 }, { ADDRESS(100, 64, 0, 0), 10, 0 },
	{ ADDRESS(127, 0, 0, 0), 8, 0 }, { ADDRESS(169, 254, 0, 0), 16, 0 }, { ADDRESS(172, 16, 0, 0), 12, 24 },
	{ ADDRESS(192, 0, 2, 0), 24, 0 }, { ADDRESS(192, 168, 0, 0), 16, 28 }, { ADDRESS(198, 18, 0, 0), 15, 0 },
	{ ADDRESS(224, 0, 0, 0), 3, 0 },
};
SEC("veto") u64 bogons(const struct route *route)
{
	for (u64 i = 0; i < sizeof(blocks) / sizeof(blocks[0]); i++) {
		if (!WITHIN(route->prefix, route->length, blocks[i].prefix, blocks[i].bits))
			continue;
		if (route->length > blocks[i].longest) {
			counter_add(124 + i, 1);
			return 1;
		}
		return 0;
	}
	return 0;
}

//// a metric that is capped by the prefix's length
static const u32 caps[33] = { [8] = 10, [16] = 100, [20] = 200, [24] = 1000, [25 ... 32] = 5000 };
SEC("price") u64 metric_cap(const struct destination *asked)
{
	u32 cap = asked->length <= 32 ? caps[asked->length] : 0;
	if (cap && asked->metric > cap)
		return cap;
	return asked->metric;
}

//// packets per neighbor and type, and a bucket of tokens for each neighbor
SEC("count") u64 per_neighbor_and_type(const struct datagram *packet)
{
	u64 neighbor = packet->router % 16;
	u64 type = packet->type;
	if (type < 1 || type > 5)
		return counter_add(0, 1);
	counter_add(1 + neighbor * 6 + type, 1);
	u64 *last = &cells()[neighbor];
	u64 *tokens = &cells()[16 + neighbor];
	if (*last != packet->moment) {
		u64 more = (packet->moment - *last) * 10;
		*tokens += more;
		if (*tokens > 50)
			*tokens = 50;
		*last = packet->moment;
	}
	if (*tokens == 0)
		return counter_add(200 + neighbor, 1);
	*tokens -= 1;
	return 0;
}

//// a tag by region, from a struct on the stack
struct region { u32 site, country, metric_class; };
static void find_region(struct region *region, u32 prefix)
{
	region->site = prefix >> 16 & 0xff;
	region->country = region->site < 64 ? 1 : region->site < 128 ? 2 : 3;
	region->metric_class = 0;
	if ((prefix & 0xff00) == 0)
		region->metric_class = 1;
}
SEC("tag") u64 tag_by_region(const struct destination *asked)
{
	struct region region;
	if (asked->tag)
		return asked->tag;
	find_region(&region, asked->prefix);
	return region.country * 1000 + region.metric_class * 100 + region.site;
}

//// routes with more next hops than counter 20 says stay out
SEC("veto") u64 many_next_hops(const struct route *route)
{
	u64 most = counter_read(20);
	if (most == 0)
		most = 4;
	if (route->next_hops > most) {
		counter_add(21, 1);
		return 1;
	}
	return 0;
}

//// a route that flaps is damped: a penalty for each change of its cost, which decays
SEC("veto") u64 damp(const struct route *route)
{
	u64 slot = route->prefix % 21;
	u64 *cost = &cells()[slot * 3];
	u64 *penalty = &cells()[slot * 3 + 1];
	u64 *since = &cells()[slot * 3 + 2];
	u64 minutes = (route->moment - *since) / 60;
	while (minutes > 0 && *penalty > 0) {
		*penalty /= 2;
		minutes--;
	}
	if (*cost != route->cost) {
		*cost = route->cost;
		*penalty += 1000;
	}
	*since = route->moment;
	return *penalty > 4000;
}

//// a Bloom filter of Router IDs: how many different ones were seen
SEC("count") u64 bloom(const struct datagram *packet)
{
	u64 is_new = 0;
	u32 hash = packet->router;
	for (int k = 0; k < 3; k++) {
		hash = hash * 2654435761u + 12345;
		u32 bit = hash >> 20;
		u64 mask = 1ull << (bit % 64);
		if (!(cells()[bit / 64] & mask)) {
			cells()[bit / 64] |= mask;
			is_new = 1;
		}
	}
	if (is_new)
		counter_add(30, 1);
	return 0;
}

//// the longest match over an array of prefixes gives the tag
SEC("tag") u64 longest_tag(const struct destination *asked)
{
	const struct { u32 prefix, bits, tag; } rows[] = {
		{ ADDRESS(10, 0, 0, 0), 8, 100 }, { ADDRESS(10, 1, 0, 0), 16, 101 }, { ADDRESS(10, 1, 2, 0), 24, 102 },
		{ ADDRESS(172, 16, 0, 0), 12, 200 }, { ADDRESS(192, 168, 0, 0), 16, 300 },
	};
	u32 best = 0, tag = asked->tag;
	for (int i = 0; i < 5; i++)
		if (WITHIN(asked->prefix, asked->length, rows[i].prefix, rows[i].bits) && rows[i].bits > best) {
			best = rows[i].bits;
			tag = rows[i].tag;
		}
	return tag;
}

//// a price by hour and weekday
SEC("price") u64 by_hour(const struct destination *asked)
{
	int hour = asked->moment / 3600 % 24;
	int weekday = (asked->moment / 86400 + 4) % 7;	/* 0: Sunday */
	if (weekday == 0 || weekday == 6)
		return asked->metric / 4;
	if (hour >= 8 && hour < 18)
		return asked->metric * 2;
	return asked->metric;
}

//// the LSAs of Updates, by type and whether they are at MaxAge
static inline u64 half(u64 at) { return packet_byte(at) << 8 | packet_byte(at + 1); }
SEC("count") u64 lsas(const struct datagram *packet)
{
	if (packet->type != UPDATE)
		return 0;
	u64 number = half(26);
	u64 at = 28;
	for (u64 i = 0; i < number && i < 32; i++) {
		if (at + 20 > packet->length)
			break;
		u64 age = half(at) & 0x7fff;
		u64 type = packet_byte(at + 3);
		if (type <= 7)
			counter_add(40 + type, 1);
		if (age == 3600)
			counter_add(50, 1);
		at += half(at + 18);
	}
	return 0;
}
