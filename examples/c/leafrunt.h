/* Programs for Leafrunt's hooks, in C. README.md beside this file says how they are compiled and loaded,
 * and which C is accepted. The first function of a file is the program: nothing may come before it but
 * `static inline` functions, which clang puts into it. */
#ifndef LEAFRUNT_H
#define LEAFRUNT_H
typedef unsigned char u8;
typedef unsigned short u16;
typedef unsigned int u32;
typedef unsigned long long u64;

/* In front of a function: it is a program for this hook, as SEC("veto"). hookcc makes an object of each. */
#define SEC(hook) __attribute__((section(hook), used))

/* The same with the hook's context, so that another one doesn't compile: SEC_VETO(f, r) { return r->cost > 9; } */
#define SEC_COUNT(name, it) SEC("count") u64 name(const struct datagram *it)
#define SEC_TAG(name, it) SEC("tag") u64 name(const struct destination *it)
#define SEC_PRICE(name, it) SEC("price") u64 name(const struct destination *it)
#define SEC_VETO(name, it) SEC("veto") u64 name(const struct route *it)

/* ---- the contexts (docs/reference/FORMATS.md, "Contexts"): what the program is asked about, for reading only */

/* count: a datagram, before it is read; asked at least once for each. What the program answers isn't used. */
struct datagram {
	u32 hook, interface;
	u64 moment;		/* seconds since 1970 */
	u32 length, type, router;	/* type and router are 0 where the packet is too short */
	u8 unused[36];
};

/* tag and price: an external destination. The answer is its tag, or its metric; a metric of 16,777,215 or
 * more announces it no longer. */
struct destination {
	u32 hook, prefix, length, metric, tag, type;	/* type 1 or 2 */
	u64 moment;
	u8 unused[32];
};

/* veto: a route, before it enters the table. It stays out where the answer isn't 0. */
struct route {
	u32 hook, prefix, length, cost, tag, kind;
	u64 moment;
	u32 distance, next_hops, first_next_hop;
	u8 unused[20];
};

enum { INTRA_AREA = 1, INTER_AREA = 2, EXTERNAL_1 = 3, EXTERNAL_2 = 4 };	/* kind */

/* A packet's type (RFC 2328, A.3.1). */
enum { HELLO = 1, DATABASE_DESCRIPTION = 2, REQUEST = 3, UPDATE = 4, ACKNOWLEDGMENT = 5 };

/* ---- the helpers (docs/reference/MACHINE.md, "Helpers") */

/* Adds an amount below 2^24 to a counter, 0 to 255. 1 where it wasn't added. */
static u64 (*const counter_add)(u64 counter, u64 amount) = (void *)1;
/* The number in a counter, 0 to 255. */
static u64 (*const counter_read)(u64 counter) = (void *)2;
/* count: a byte of the packet, or 256 past its end. */
static u64 (*const packet_byte)(u64 offset) = (void *)3;
/* tag, price and veto: the cost of the table's row with exactly this prefix and length, or NO_ROW. */
static u64 (*const table_cost)(u64 prefix, u64 length) = (void *)4;

#define NO_ROW 0x100000000ull

/* ---- the maps: 64 cells in each worker (thread), and 256 counters; all programs share both, and both stay
 * when a program is detached. At tag, price and veto any worker may ask, so keep state there in counters.
 * Write `& 63` and `& 255` at an index that isn't a constant: the verifier takes the bounds from there. */

/* The wide load of a map's address, which clang has no C for: opcode 0x18 into a register, source 6. */
__asm__(".set map_into_r0, 0x60\n.set map_into_r1, 0x61\n.set map_into_r2, 0x62\n"
	".set map_into_r3, 0x63\n.set map_into_r4, 0x64\n.set map_into_r5, 0x65\n"
	".set map_into_r6, 0x66\n.set map_into_r7, 0x67\n.set map_into_r8, 0x68\n"
	".set map_into_r9, 0x69");

static inline u64 *cells(void)
{
	u64 *words;
	__asm__(".byte 0x18, map_into_%0, 0, 0, 1, 0, 0, 0, 0, 0, 0, 0, 0, 0, 0, 0" : "=r"(words));
	return words;
}

static inline const u64 *counters(void)
{
	const u64 *words;
	__asm__(".byte 0x18, map_into_%0, 0, 0, 0, 0, 0, 0, 0, 0, 0, 0, 0, 0, 0, 0" : "=r"(words));
	return words;
}

/* ---- prefixes */

#define ADDRESS(a, b, c, d) ((u32)(a) << 24 | (u32)(b) << 16 | (u32)(c) << 8 | (u32)(d))

/* The first `bits` bits of an address, 1 to 32 of them. */
#define FIRST(address, bits) ((u32)(address) >> (32 - (bits)))

/* Whether a prefix lies in the block, the block itself too. */
#define WITHIN(prefix, length, block, bits) \
	((length) >= (bits) && FIRST(prefix, bits) == FIRST(block, bits))

/* ---- loops. hooktool counts the turns of plain ones, if something ends them. These keep a count that falls,
 * which clang can't see through: they need no register more, and their turns may be known at run time alone. */

#define KEEP(x) ({ __asm__ volatile("" : "+r"(x)); (x); })

/* i from n down to 1. */
#define DOWN(i, n) for (u64 i = (n); KEEP(i); i--)

/* i from 0 up to n - 1. It takes two registers, one for the turns that are left. */
#define EACH(i, n)								\
	for (u64 i __attribute__((unused)), i##_end = (n), i##_left = i##_end;	\
	     KEEP(i##_left) && (i = i##_end - i##_left, 1);			\
	     i##_left--)

/* ---- numbers in counters */

/* A number below 2^24 that all workers share, in a counter that nothing else adds to: counters only grow, so what
 * is kept is the number that the counter has in its low 24 bits. Of two workers that keep one at once, either may win,
 * or a third number comes of both. */
static inline u64 kept(u64 counter)
{
	return counter_read(KEEP(counter) & 255) & 0xffffff;
}

static inline void keep(u64 counter, u64 number)
{
	counter_add(KEEP(counter) & 255, (number - kept(counter)) & 0xffffff);
}

#endif
