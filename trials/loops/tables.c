/* Constant tables, strings and remainders as C authors write them, each a program at `tag` or `count`, which
 * tools/try-loops tries as it does loops.c: tables.rows says which are accepted. */
#ifdef PEER
#include "peer.h"
#else
#include "leafrunt.h"
#endif

static const u8 bytes[] = { 9, 9, 9, 200, 0, 255, 1, 1, 2, 3, 5, 8, 13 };
static const u16 halves[8] = { 1, 65535, 3, 40000, 0, 0, 7, 7 };
static const u32 words[33] = { [1] = 10, [8] = 4294967295, [16] = 100, [17] = 2147483648, [24 ... 31] = 5000, [32] = 3 };
static const u64 wide[5] = { 1, 0xffffffffffffffff, 0x100000000, 0x7fffffff, 5 };
static const int falling[4] = { -1, -70000, 0, 70000 };
static const struct block { u32 prefix, bits; u8 tag; u64 more; } blocks[] = {
	{ 0x0a000000, 8, 3, 0x1234567890 }, { 0xc0a80000, 16, 200, 7 }, { 0xcb007100, 24, 77, 1 }, { 0x80000000, 1, 1, 0 },
};
static const u8 grid[3][4] = { { 1, 2, 3, 4 }, { 5, 6, 7, 8 }, { 9, 10, 11, 12 } };
static const char *const names[] = { "alpha", "be\tta", "", "\377\001x" };
static const u32 one[1] = { 42 };

SEC("tag") u64 of_bytes(const struct destination *asked)
{
	return asked->tag < sizeof bytes ? bytes[asked->tag] : 1000;
}

SEC("tag") u64 of_halves(const struct destination *asked)
{
	return halves[asked->metric % 8] + 2 * halves[asked->tag & 7];
}

SEC("tag") u64 of_words(const struct destination *asked)
{
	return asked->length <= 32 ? words[asked->length] : 0;
}

SEC("tag") u64 of_wide(const struct destination *asked)
{
	u64 it = wide[asked->metric % 5];
	return it >> 32 ^ it;
}

SEC("tag") u64 of_signed(const struct destination *asked)
{
	return falling[asked->tag & 3] + asked->metric;
}

SEC("tag") u64 of_blocks(const struct destination *asked)
{
	for (u64 i = 0; i < sizeof blocks / sizeof *blocks; i++)
		if (asked->length >= blocks[i].bits && asked->prefix >> (32 - blocks[i].bits) == blocks[i].prefix >> (32 - blocks[i].bits))
			return blocks[i].tag + blocks[i].more;
	return 0;
}

SEC("tag") u64 of_a_field(const struct destination *asked)
{
	const struct block *block = &blocks[asked->metric & 3];
	return block->bits * 1000 + block->tag + block->more;
}

SEC("tag") u64 of_a_grid(const struct destination *asked)
{
	return grid[asked->metric % 3][asked->tag & 3];
}

SEC("tag") u64 of_a_text(const struct destination *asked)
{
	const char *text = "leafrunt";
	return text[asked->tag % 9];
}

SEC("tag") u64 of_texts(const struct destination *asked)
{
	const char *text = names[asked->tag & 3];
	return text[0] * 256 + (text[0] ? text[1] : 0);
}

SEC("tag") u64 of_either(const struct destination *asked)
{
	const u32 *it = asked->metric & 1 ? words : one;
	return asked->metric & 1 ? it[asked->length % 33] : it[0];
}

SEC("tag") u64 of_a_walk(const struct destination *asked)
{
	u64 sum = asked->tag;
	for (const u8 *at = bytes; at < bytes + sizeof bytes; at++)
		sum = sum * 3 + *at;
	return sum;
}

SEC("tag") u64 of_a_search(const struct destination *asked)
{
	u64 at = 0;
	while (at < 33 && words[at] != asked->metric)
		at++;
	return at;
}

SEC("tag") u64 of_a_hash(const struct destination *asked)
{
	u32 hash = 2166136261u;
	for (int i = 0; i < 4; i++)
		hash = (hash ^ words[(asked->prefix >> 8 * i & 31)]) * 16777619u;
	return hash;
}

SEC("tag") u64 remainder_of_21(const struct destination *asked)
{
	cells()[asked->metric % 21] = asked->tag;
	return cells()[asked->prefix % 21] + asked->prefix % 21 + asked->prefix % 1000003;
}

SEC("tag") u64 remainder_of_a_field(const struct destination *asked)
{
	u64 n = asked->length + 1;
	return asked->prefix % n * 100 + (asked->metric * 77777ull) % n;
}

SEC("tag") u64 quotient_and_remainder(const struct destination *asked)
{
	u32 tens = asked->prefix / 10, rest = asked->prefix % 10;
	u64 more = asked->metric * 10000019ull;
	return tens + rest * 7 + more / 1000 + more % 1000;
}

SEC("count") u64 of_types(const struct datagram *packet)
{
	static const u32 amounts[6] = { 1, 10, 100, 1000, 10000, 100000 };
	return counter_add(7, amounts[packet->type < 6 ? packet->type : 0]);
}

SEC("count") u64 of_each_byte(const struct datagram *packet)
{
	static const u8 weights[16] = { 3, 1, 4, 1, 5, 9, 2, 6, 5, 3, 5, 8, 9, 7, 9, 3 };
	u64 sum = 0;
	for (u64 i = 0; i < packet->length && i < 40; i++)
		sum += weights[packet_byte(i) & 15] * (i % 7);
	return counter_add(3, sum);
}
