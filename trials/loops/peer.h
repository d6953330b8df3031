/* leafrunt.h's names for loops.c as a library of this machine, which tools/try-loops loads. */
typedef unsigned char u8;
typedef unsigned short u16;
typedef unsigned int u32;
typedef unsigned long long u64;

#define SEC(hook) __attribute__((used))

struct datagram {
	u32 hook, interface;
	u64 moment;
	u32 length, type, router;
	u8 unused[36];
};

struct destination {
	u32 hook, prefix, length, metric, tag, type;
	u64 moment;
	u8 unused[32];
};

#define NO_ROW 0x100000000ull

u64 peer_cells[64], peer_counters[256];
u8 peer_packet[65536];
u64 peer_packet_length;
u32 peer_row_prefix, peer_row_length, peer_row_cost;

static inline u64 *cells(void)
{
	return peer_cells;
}

static inline u64 counter_add(u64 counter, u64 amount)
{
	peer_counters[counter & 255] += amount;
	return 0;
}

static inline u64 packet_byte(u64 offset)
{
	return offset < peer_packet_length ? peer_packet[offset] : 256;
}

static inline u64 table_cost(u64 prefix, u64 length)
{
	return prefix == peer_row_prefix && length == peer_row_length ? peer_row_cost : NO_ROW;
}
