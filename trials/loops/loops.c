/* Loops as C authors write them, each a program at `tag` or `count`. tools/try-loops compiles them, has
 * hooktool find their statements, and compares what they answer with the same C compiled for this machine
 * (peer.h). accepted.rows says which are accepted. */
#ifdef PEER
#include "peer.h"
#else
#include "leafrunt.h"
#endif

SEC("tag") u64 sum_upward(const struct destination *asked)
{
	u64 sum = 0;
	for (u64 i = 0; i < 64; i++)
		sum += i * (asked->metric ^ sum);
	return sum & 0xffff;
}

SEC("tag") u64 sum_of_cells(const struct destination *asked)
{
	u64 sum = 0;
	cells()[5] = asked->metric;
	for (u64 i = 0; i < 64; i++)
		sum += cells()[i];
	return sum;
}

SEC("tag") u64 sum_int_index(const struct destination *asked)
{
	u64 sum = 0;
	cells()[5] = asked->metric;
	for (int i = 0; i < 64; i++)
		sum += cells()[i];
	return sum;
}

SEC("tag") u64 fill_cells(const struct destination *asked)
{
	for (u64 i = 0; i < 64; i++)
		cells()[i] = asked->metric + i;
	return cells()[63];
}

SEC("tag") u64 first_of_cells(const struct destination *asked)
{
	cells()[7] = asked->metric;
	for (u64 i = 0; i < 64; i++)
		if (cells()[i] == asked->metric)
			return i;
	return 64;
}

SEC("tag") u64 least_cell(const struct destination *asked)
{
	u64 best = 0;
	cells()[9] = asked->metric;
	for (u64 i = 1; i < 64; i++)
		if (cells()[i] > cells()[best])
			best = i;
	return best;
}

SEC("tag") u64 until_break(const struct destination *asked)
{
	u64 i, sum = 0;
	for (i = 0; i < 100; i++) {
		sum += i * asked->metric;
		if (sum > 1000)
			break;
	}
	return i;
}

SEC("count") u64 over_length(const struct datagram *packet)
{
	u64 sum = 0;
	for (u64 i = 0; i < packet->length; i++)
		sum += packet_byte(i);
	return counter_add(1, sum & 0xffffff);
}

SEC("count") u64 over_length_bounded(const struct datagram *packet)
{
	u64 sum = 0, n = packet->length;
	if (n > 128)
		n = 128;
	for (u64 i = 0; i < n; i++)
		sum += packet_byte(i);
	return counter_add(1, sum & 0xffffff);
}

SEC("count") u64 over_length_int(const struct datagram *packet)
{
	u64 sum = 0;
	for (u32 i = 0; i < packet->length && i < 200; i++)
		sum += packet_byte(i);
	return counter_add(1, sum & 0xffffff);
}

SEC("tag") u64 nested_constant(const struct destination *asked)
{
	u64 sum = 0;
	for (u64 i = 0; i < 16; i++)
		for (u64 j = 0; j < 16; j++)
			sum = sum * 31 + (i ^ j) + asked->metric;
	return sum & 0xffff;
}

SEC("tag") u64 nested_triangle(const struct destination *asked)
{
	u64 sum = 0;
	for (u64 i = 0; i < 16; i++)
		for (u64 j = 0; j < i; j++)
			sum = sum * 31 + (i ^ j) + asked->metric;
	return sum & 0xffff;
}

SEC("count") u64 nested_over_length(const struct datagram *packet)
{
	u64 set = 0;
	for (u64 i = 0; i < packet->length && i < 256; i++)
		for (u64 bit = 0; bit < 8; bit++)
			set += packet_byte(i) >> bit & 1;
	return counter_add(1, set & 0xffffff);
}

SEC("tag") u64 stack_constant(const struct destination *asked)
{
	u64 values[8], sum = 0;
	for (u64 i = 0; i < 8; i++)
		values[i] = asked->metric * i;
	for (u64 i = 0; i < 8; i++)
		sum += values[i];
	return sum;
}

SEC("tag") u64 stack_loop(const struct destination *asked)
{
	u64 values[32], sum = 0;
#pragma clang loop unroll(disable)
	for (u64 i = 0; i < 32; i++)
		values[i] = asked->metric ^ i;
#pragma clang loop unroll(disable)
	for (u64 i = 0; i < 32; i++)
		sum += values[i];
	return sum;
}

SEC("tag") u64 step_of_8(const struct destination *asked)
{
	u64 sum = 0;
	for (u64 i = 0; i < 512; i += 8)
		sum = sum * 3 + (i ^ asked->metric);
	return sum & 0xffff;
}

SEC("tag") u64 step_of_3(const struct destination *asked)
{
	u64 sum = 0;
	for (u64 i = 0; i < 100; i += 3)
		sum = sum * 3 + (i ^ asked->metric);
	return sum & 0xffff;
}

SEC("tag") u64 not_equal(const struct destination *asked)
{
	u64 sum = 0;
	for (u64 i = 10; i != 50; i++)
		sum = sum * 3 + (i ^ asked->metric);
	return sum & 0xffff;
}

SEC("tag") u64 at_most(const struct destination *asked)
{
	u64 sum = 0;
	for (u64 i = 1; i <= 40; i++)
		sum = sum * 3 + (i ^ asked->metric);
	return sum & 0xffff;
}

SEC("tag") u64 downward(const struct destination *asked)
{
	u64 sum = 0;
	for (u64 i = 64; i > 0; i--)
		sum = sum * 3 + (i ^ asked->metric);
	return sum & 0xffff;
}

SEC("tag") u64 downward_signed(const struct destination *asked)
{
	u64 sum = 0;
	for (int i = 63; i >= 0; i--)
		sum = sum * 3 + ((u64)i ^ asked->metric);
	return sum & 0xffff;
}

SEC("tag") u64 while_below(const struct destination *asked)
{
	u64 i = 0;
	while (i < 200 && i * i < asked->metric)
		i++;
	return i;
}

SEC("tag") u64 do_while(const struct destination *asked)
{
	u64 i = 0, sum = 0;
	do {
		sum = sum * 5 + (i ^ asked->metric);
		i++;
	} while (i < 30);
	return sum & 0xffff;
}

SEC("tag") u64 while_shift(const struct destination *asked)
{
	u64 bits = 0;
	for (u32 x = asked->metric; x; x >>= 1)
		bits++;
	return bits;
}

SEC("tag") u64 bits_set(const struct destination *asked)
{
	u64 bits = 0;
	for (u32 i = 0; i < 32; i++)
		bits += asked->prefix >> i & 1;
	return bits;
}

SEC("tag") u64 longest_match_upward(const struct destination *asked)
{
	u64 best = 0;
	for (u64 length = 1; length <= 32; length++)
		if (table_cost(asked->prefix & 0xffffffffull << (32 - length), length) != NO_ROW)
			best = length;
	return best;
}

SEC("tag") u64 longest_match_downward(const struct destination *asked)
{
	for (u64 length = 32; length > 0; length--)
		if (table_cost(asked->prefix & 0xffffffffull << (32 - length), length) != NO_ROW)
			return length;
	return 0;
}

SEC("tag") u64 up_to_own_length(const struct destination *asked)
{
	u64 best = 0, n = asked->length & 63;
	for (u64 length = 0; length < n; length++)
		best = best * 3 + length;
	return best & 0xffff;
}

SEC("tag") u64 search_key(const struct destination *asked)
{
	u64 *own = cells();
	own[12] = 77;
	for (u64 i = 0; i < 32; i++)
		if (own[2 * i] == 77)
			return own[2 * i + 1] + i;
	return 99;
}

SEC("tag") u64 index_mask(const struct destination *asked)
{
	u64 sum = 0;
	cells()[asked->length & 63] = 3;
	for (u64 i = 0; i < 64; i++)
		sum += cells()[(i + asked->metric) & 63];
	return sum;
}

SEC("tag") u64 pointer_walk(const struct destination *asked)
{
	u64 *at = cells(), *end = at + 64, sum = 0;
	at[3] = asked->metric;
	while (at < end)
		sum += *at++;
	return sum;
}

SEC("tag") u64 two_loops(const struct destination *asked)
{
	u64 sum = 0;
	for (u64 i = 0; i < 20; i++)
		sum = sum * 3 + (i ^ asked->metric);
	for (u64 i = 0; i < 30; i++)
		sum = sum * 5 + (i ^ asked->tag);
	return sum & 0xffff;
}

SEC("tag") u64 continue_loop(const struct destination *asked)
{
	u64 sum = 0;
	for (u64 i = 0; i < 50; i++) {
		if (asked->metric >> (i & 31) & 1)
			continue;
		sum = sum * 3 + i;
	}
	return sum & 0xffff;
}

SEC("tag") u64 reverse_bits(const struct destination *asked)
{
	u32 out = 0;
	for (int i = 0; i < 32; i++)
		out = out << 1 | (asked->prefix >> i & 1);
	return out;
}

SEC("tag") u64 gcd(const struct destination *asked)
{
	u64 a = asked->metric & 0xff, b = 36;
	for (int i = 0; i < 20 && b; i++) {
		u64 t = a % b;
		a = b;
		b = t;
	}
	return a;
}

SEC("count") u64 add_each_counter(const struct datagram *packet)
{
	for (u64 i = 0; i < 16; i++)
		if (packet->type == i)
			counter_add(i, 1);
	return 0;
}

SEC("tag") u64 insertion_sort(const struct destination *asked)
{
	u64 *own = cells();
	for (u64 i = 0; i < 8; i++)
		own[i] = asked->metric * (i + 3) % 17;
	for (u64 i = 1; i < 8; i++)
		for (u64 j = i; j > 0; j--)
			if (own[j - 1] > own[j]) {
				u64 t = own[j];
				own[j] = own[j - 1];
				own[j - 1] = t;
			}
	return own[0] << 8 | own[7];
}
