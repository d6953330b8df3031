/* Constructs of C, each a small program. tools/try-constructs compiles each block alone, has hooktool find its
 * statements, and compares what is accepted with accepted.rows. A block begins at a line `//// family`. */

//// loops
SEC("tag") u64 loop_const(const struct destination *d) { u64 s = 0; for (u64 i = 0; i < 10; i++) s += i ^ d->tag; return s; }
//// loops
SEC("tag") u64 loop_cells_read(const struct destination *d) { u64 s = d->tag; for (u64 i = 0; i < 64; i++) s += cells()[i]; return s; }
//// loops
SEC("tag") u64 loop_cells_write(const struct destination *d) { for (u64 i = 0; i < 64; i++) cells()[i] = i + d->metric; return 0; }
//// loops
SEC("tag") u64 loop_counters_read(const struct destination *d) { u64 s = d->tag; for (u64 i = 0; i < 256; i++) s += counters()[i]; return s; }
//// loops
SEC("count") u64 loop_packet_const(const struct datagram *p) { u64 s = 0; for (u64 i = 0; i < 20; i++) s += packet_byte(i); return counter_add(1, s & 0xffff); }
//// loops
SEC("count") u64 loop_packet_bounded(const struct datagram *p) { u64 s = 0; for (u64 i = 0; i < p->length && i < 64; i++) s += packet_byte(i); return counter_add(1, s & 0xffff); }
//// loops
SEC("count") u64 loop_packet_length(const struct datagram *p) { u64 s = 0; u64 n = p->length; if (n > 100) n = 100; for (u64 i = 0; i < n; i++) s += packet_byte(i); return counter_add(1, s & 0xffff); }
//// loops
SEC("tag") u64 loop_down(const struct destination *d) { u64 s = 0; for (u64 i = 32; i > 0; i--) s += d->prefix >> i; return s; }
//// loops
SEC("tag") u64 loop_signed(const struct destination *d) { u64 s = 0; for (int i = 31; i >= 0; i--) s += d->prefix >> i & 1; return s; }
//// loops
SEC("tag") u64 loop_step(const struct destination *d) { u64 s = 0; for (u64 i = 0; i < 64; i += 4) s += cells()[i]; return s + d->tag; }
//// loops
SEC("tag") u64 loop_nested(const struct destination *d) { u64 s = 0; for (u64 i = 0; i < 8; i++) for (u64 j = 0; j < 8; j++) s += cells()[i * 8 + j]; return s + d->tag; }
//// loops
SEC("tag") u64 loop_triangle(const struct destination *d) { u64 s = 0; for (u64 i = 0; i < 8; i++) for (u64 j = 0; j < i; j++) s += i * j ^ d->tag; return s; }
//// loops
SEC("tag") u64 loop_break(const struct destination *d) { u64 i; for (i = 0; i < 64; i++) if (cells()[i] == d->metric) break; return i; }
//// loops
SEC("tag") u64 loop_continue(const struct destination *d) { u64 s = 0; for (u64 i = 0; i < 64; i++) { if (cells()[i] & 1) continue; s++; } return s + d->tag; }
//// loops
SEC("tag") u64 loop_while(const struct destination *d) { u64 x = d->prefix, n = 0; while (x) { n += x & 1; x >>= 1; } return n; }
//// loops
SEC("tag") u64 loop_do(const struct destination *d) { u64 n = 0, x = d->metric; do { x /= 10; n++; } while (x && n < 10); return n; }
//// loops
SEC("veto") u64 loop_table(const struct route *r) { for (u64 i = 1; i <= 32; i++) if (table_cost(r->prefix & (u32)(0xffffffff00000000ull >> i), i) != NO_ROW) return 1; return 0; }
//// loops
SEC("veto") u64 loop_table_down(const struct route *r) { for (u64 i = r->length & 31; i > 0; i--) if (table_cost(r->prefix >> (32 - i) << (32 - i), i) != NO_ROW) return 1; return 0; }
//// loops
SEC("veto") u64 loop_to_field(const struct route *r) { u64 s = 0; for (u32 i = 0; i < r->next_hops; i++) s += i * s + 1; return s > 100; }
//// loops
SEC("veto") u64 loop_masked_field(const struct route *r) { u64 s = 0; for (u32 i = 0; i < (r->next_hops & 15); i++) s = s * 3 + i; return s > 100; }
//// loops
SEC("tag") u64 loop_two_after(const struct destination *d) { u64 s = 0; for (u64 i = 0; i < 16; i++) s += cells()[i]; for (u64 i = 16; i < 32; i++) s ^= cells()[i]; return s + d->tag; }
//// loops
SEC("tag") u64 loop_min(const struct destination *d) { u64 m = 0; for (u64 i = 1; i < 64; i++) if (cells()[i] < cells()[m]) m = i; return m + d->tag; }
//// loops
SEC("tag") u64 loop_pointer(const struct destination *d) { u64 s = d->tag; for (u64 *c = cells(); c != cells() + 64; c++) s += *c; return s; }
//// loops
SEC("tag") u64 loop_unrolled(const struct destination *d) { u64 s = d->tag;
#pragma clang loop unroll(full)
	for (u64 i = 0; i < 8; i++) s += cells()[i]; return s; }
//// loops
SEC("tag") u64 loop_binary_search(const struct destination *d) { u64 lo = 0, hi = 64; while (lo < hi) { u64 mid = (lo + hi) / 2; if (cells()[mid & 63] < d->metric) lo = mid + 1; else hi = mid; } return lo; }
//// loops
SEC("tag") u64 loop_each(const struct destination *d) { u64 s = 0; EACH(i, 64) s += cells()[i & 63]; return s + d->tag; }
//// loops
SEC("tag") u64 loop_DOWN(const struct destination *d) { u64 s = 0; DOWN(i, 32) s += d->prefix >> i; return s; }

//// branches
SEC("veto") u64 if_range(const struct route *r) { return r->length > 8 && r->length < 24; }
//// branches
SEC("veto") u64 if_ladder(const struct route *r) { if (r->kind == INTRA_AREA) return 0; if (r->kind == INTER_AREA) return r->cost > 100; if (r->tag == 7) return 1; return 0; }
//// branches
SEC("veto") u64 if_switch(const struct route *r) { switch (r->kind) { case 1: return 0; case 2: return r->cost > 10; case 3: return r->tag; default: return 1; } }
//// branches
SEC("price") u64 if_switch_dense(const struct destination *d) { switch (d->length) { case 8: return 100; case 16: return 90; case 20: return 80; case 24: return 70; case 28: return 60; case 32: return 50; default: return 10; } }
//// branches
SEC("price") u64 if_ternary(const struct destination *d) { return d->metric > 1000 ? 1000 : d->metric; }
//// branches
SEC("price") u64 if_minmax(const struct destination *d) { u64 m = d->metric; if (m < 10) m = 10; if (m > 65535) m = 65535; return m; }
//// branches
SEC("veto") u64 if_logical(const struct route *r) { return (r->tag & 1) || (r->cost > 5 && !(r->kind & 2)); }
//// branches
SEC("veto") u64 if_goto(const struct route *r) { if (r->cost > 9) goto out; if (r->tag == 3) goto out; return 0; out: return 1; }
//// branches
SEC("veto") u64 if_signed(const struct route *r) { int x = (int)r->cost - 100; return x < 0; }
//// branches
SEC("price") u64 if_early(const struct destination *d) { if (d->length == 0) return 0xffffff; u64 c = table_cost(d->prefix, d->length); if (c == NO_ROW) return d->metric; return c & 0xffff; }
//// branches
SEC("veto") u64 if_bool(const struct route *r) { _Bool a = r->cost > 3, b = r->tag > 4; return a ^ b; }

//// arithmetic
SEC("price") u64 div_const(const struct destination *d) { return d->metric / 3; }
//// arithmetic
SEC("price") u64 div_variable(const struct destination *d) { return d->metric / (d->length + 1); }
//// arithmetic
SEC("price") u64 mod_const(const struct destination *d) { return d->metric % 21; }
//// arithmetic
SEC("price") u64 mod_power(const struct destination *d) { return d->metric % 16; }
//// arithmetic
SEC("price") u64 div_signed(const struct destination *d) { int m = d->metric; return m / 3; }
//// arithmetic
SEC("price") u64 mul_64(const struct destination *d) { return (u64)d->metric * 3 / 2; }
//// arithmetic
SEC("price") u64 shift_variable(const struct destination *d) { return d->metric >> (d->length & 31); }
//// arithmetic
SEC("price") u64 shift_64(const struct destination *d) { return (d->moment << 3 | d->moment >> 61) & 0xffff; }
//// arithmetic
SEC("price") u64 negate(const struct destination *d) { return -d->metric & 0xffff; }
//// arithmetic
SEC("price") u64 not(const struct destination *d) { return ~d->metric & 0xffff; }
//// arithmetic
SEC("price") u64 casts(const struct destination *d) { return (u8)d->metric + (u16)d->tag + (signed char)d->length; }
//// arithmetic
SEC("tag") u64 byte_order(const struct destination *d) { return __builtin_bswap32(d->prefix) ^ __builtin_bswap16(d->tag); }
//// arithmetic
SEC("tag") u64 popcount(const struct destination *d) { return __builtin_popcount(d->prefix); }
//// arithmetic
SEC("tag") u64 clz(const struct destination *d) { return d->prefix ? __builtin_clz(d->prefix) : 32; }
//// arithmetic
SEC("tag") u64 hash(const struct destination *d) { u32 h = d->prefix; h ^= h >> 16; h *= 0x85ebca6b; h ^= h >> 13; return h; }
//// arithmetic
SEC("price") u64 weekday(const struct destination *d) { u64 day = d->moment / 86400; return (day + 4) % 7 >= 5 ? d->metric / 4 : d->metric; }
//// arithmetic
SEC("price") u64 saturate(const struct destination *d) { u64 s = (u64)d->metric + d->tag; return s > 0xfffffe ? 0xfffffe : s; }
//// arithmetic
SEC("tag") u64 wide_constant(const struct destination *d) { return (d->moment ^ 0x123456789abcdef0ull) >> 40; }
//// arithmetic
SEC("tag") u64 absolute(const struct destination *d) { int x = (int)d->metric - (int)d->tag; return x < 0 ? -x : x; }

//// masks
SEC("tag") u64 mask_index(const struct destination *d) { return cells()[d->tag & 63]; }
//// masks
SEC("tag") u64 compare_index(const struct destination *d) { u64 i = d->tag; if (i >= 64) return 0; return cells()[i]; }
//// masks
SEC("tag") u64 compare_u32_index(const struct destination *d) { u32 i = d->tag; if (i > 63) return 0; return cells()[i]; }
//// masks
SEC("tag") u64 compare_int_index(const struct destination *d) { int i = d->tag; if (i < 0 || i > 63) return 0; return cells()[i]; }
//// masks
SEC("tag") u64 clamp_index(const struct destination *d) { u64 i = d->tag; if (i > 63) i = 63; return cells()[i]; }
//// masks
SEC("tag") u64 shift_index(const struct destination *d) { return cells()[d->prefix >> 26]; }
//// masks
SEC("tag") u64 mod_index(const struct destination *d) { return cells()[d->tag % 64]; }
//// masks
SEC("tag") u64 mod_21_index(const struct destination *d) { return cells()[d->tag % 21]; }
//// masks
SEC("tag") u64 or_index(const struct destination *d) { return cells()[(d->tag & 31) | 32]; }
//// masks
SEC("tag") u64 or_range_index(const struct destination *d) { u64 i = d->tag; if (i > 23) return 0; return cells()[i | 32]; }
//// masks
SEC("tag") u64 xor_index(const struct destination *d) { return cells()[(d->tag & 31) ^ (d->prefix & 63)]; }
//// masks
SEC("tag") u64 xor_range_index(const struct destination *d) { u64 i = d->tag, j = d->length; if (i > 31 || j > 31) return 0; return cells()[i ^ j]; }
//// masks
SEC("tag") u64 add_index(const struct destination *d) { return cells()[(d->tag & 31) + (d->prefix & 31)]; }
//// masks
SEC("tag") u64 sub_index(const struct destination *d) { u64 i = d->tag; if (i < 10 || i > 73) return 0; return cells()[i - 10]; }
//// masks
SEC("tag") u64 mul_index(const struct destination *d) { return cells()[(d->tag & 7) * 8 + (d->prefix & 7)]; }
//// masks
SEC("tag") u64 byte_index(const struct destination *d) { u8 i = d->tag; return cells()[i >> 2]; }
//// masks
SEC("tag") u64 copy_index(const struct destination *d) { u64 i = d->tag, j = i; if (j > 63) return i; return cells()[i] + j; }
//// masks
SEC("tag") u64 index_of_index(const struct destination *d) { return cells()[cells()[d->tag & 63] & 63]; }
//// masks
SEC("count") u64 counter_masked(const struct datagram *p) { return counter_add(p->type & 255, 1); }
//// masks
SEC("count") u64 counter_compared(const struct datagram *p) { if (p->type > 5) return 0; return counter_add(p->type, 1); }
//// masks
SEC("count") u64 counter_amount(const struct datagram *p) { return counter_add(9, p->length & 0xffffff); }
//// masks
SEC("count") u64 counter_amount_compared(const struct datagram *p) { u64 n = p->length; if (n > 65535) n = 65535; return counter_add(9, n); }
//// masks
SEC("count") u64 counter_byte(const struct datagram *p) { u64 b = packet_byte(1); if (b == 256) return 0; return counter_add(b, 1); }

//// state
SEC("count") u64 cell_add(const struct datagram *p) { cells()[3] += p->length; return 0; }
//// state
SEC("count") u64 cell_swap(const struct datagram *p) { u64 *c = cells(); u64 t = c[0]; c[0] = c[1]; c[1] = t; return 0; }
//// state
SEC("count") u64 cell_u32(const struct datagram *p) { u32 *c = (u32 *)cells(); return c[3]; }
//// state
SEC("count") u64 cell_struct(const struct datagram *p) { struct { u64 first, last; } *it = (void *)cells(); if (!it->first) it->first = p->moment; it->last = p->moment; return 0; }
//// state
SEC("count") u64 token_bucket(const struct datagram *p) { u64 *c = cells(), k = (p->router & 15) * 2, past = p->moment - c[k]; c[k] = p->moment; u64 t = c[k + 1] + past; if (t > 20) t = 20; if (!t) return counter_add(1, 1); c[k + 1] = t - 1; return 0; }
//// state
SEC("count") u64 ring(const struct datagram *p) { u64 *c = cells(), at = c[0] & 31; c[1 + at] = p->router; c[0] = at + 1; return 0; }
//// state
SEC("count") u64 bloom(const struct datagram *p) { u32 h = p->router * 2654435761u; u64 *c = cells() + (h >> 27), bit = 1ull << (h & 63); if (!(*c & bit)) { *c |= bit; counter_add(5, 1); } return 0; }
//// state
SEC("veto") u64 counter_read_direct(const struct route *r) { return counters()[r->length & 31] > 10; }
//// state
SEC("veto") u64 counter_read_call(const struct route *r) { return counter_read(7) > 10; }
//// state
SEC("count") u64 atomic_add(const struct datagram *p) { __sync_fetch_and_add(&cells()[2], 1); return 0; }
//// state
SEC("count") u64 atomic_swap(const struct datagram *p) { return __sync_val_compare_and_swap(&cells()[2], 1, 2); }
//// state
SEC("count") u64 pointer_null(const struct datagram *p) { u64 *c = cells(); if (!KEEP(c)) return 0; return *c; }
//// state
SEC("count") u64 pointer_number_first(const struct datagram *p) { u64 k = (p->type & 7) * 8; KEEP(k); k += (u64)cells(); return *(u64 *)k; }
//// state
SEC("count") u64 pointer_between(const struct datagram *p) { u64 *c = cells() + (p->type & 7); return c < cells() + 4; }

//// stack
SEC("tag") u64 stack_scalar(const struct destination *d) { volatile u64 x = d->metric; x += 1; return x; }
//// stack
SEC("tag") u64 stack_struct(const struct destination *d) { volatile struct { u32 a, b; u64 c; } it = { d->tag, d->metric, 7 }; return it.a + it.b + it.c; }
//// stack
SEC("tag") u64 stack_array_const(const struct destination *d) { volatile u32 a[4]; a[0] = d->tag; a[1] = d->metric; a[2] = 3; a[3] = 4; return a[0] + a[1] + a[2] + a[3]; }
//// stack
SEC("tag") u64 stack_array_index(const struct destination *d) { u32 a[4]; a[0] = d->tag; a[1] = d->metric; a[2] = 3; a[3] = 4; return ((volatile u32 *)a)[d->length & 3]; }
//// stack
SEC("tag") u64 stack_array_loop(const struct destination *d) { volatile u8 a[8]; for (u64 i = 0; i < 8; i++) a[i] = d->prefix >> i; u64 s = 0; for (u64 i = 0; i < 8; i++) s += a[i]; return s; }
//// stack
SEC("tag") u64 stack_zeroed(const struct destination *d) { volatile u64 a[4] = { 0 }; a[1] = d->tag; return a[0] + a[1] + a[3]; }
//// stack
SEC("count") u64 stack_over_call(const struct datagram *p) { u64 a = packet_byte(0), b = packet_byte(1), c = packet_byte(2), e = packet_byte(3), f = packet_byte(4), g = packet_byte(5), h = packet_byte(6); return counter_add(1, (a ^ b ^ c ^ e ^ f ^ g ^ h) & 0xff); }
//// stack
SEC("count") u64 stack_context(const struct datagram *p) { const struct datagram *volatile kept = p; u64 a = packet_byte(0); if (a == 1) a = packet_byte(1); return counter_add(kept->type & 7, a & 0xff); }
//// stack
SEC("count") u64 stack_pointer_loop(const struct datagram *p) { const struct datagram *volatile kept = p; u64 s = 0; for (u64 i = 0; i < 4; i++) s += packet_byte(i); return counter_add(kept->type & 7, s & 0xff); }

//// data
static const u32 table_of_costs[4] = { 10, 20, 30, 40 };
SEC("price") u64 data_table(const struct destination *d) { return table_of_costs[d->tag & 3]; }
//// data
SEC("price") u64 data_local(const struct destination *d) { const u32 costs[5] = { 10, 20, 30, 40, 50 }; return costs[d->length & 3]; }
//// data
SEC("veto") u64 data_string(const struct route *r) { const char *name = "leafrunt"; return name[r->length & 7] == 'f'; }
//// data
u64 seen;
SEC("veto") u64 data_global(const struct route *r) { seen++; return seen > 10; }
//// data
static u64 summed;
SEC("veto") u64 data_static(const struct route *r) { summed += r->cost; return summed > 10; }
//// data
static const struct { u32 block, bits; } bogons[] = { { ADDRESS(10, 0, 0, 0), 8 }, { ADDRESS(172, 16, 0, 0), 12 }, { ADDRESS(192, 168, 0, 0), 16 } };
SEC("veto") u64 data_bogons(const struct route *r) { for (u64 i = 0; i < 3; i++) if (r->length >= bogons[i].bits && r->prefix >> (32 - bogons[i].bits) == bogons[i].block >> (32 - bogons[i].bits)) return 1; return 0; }

//// calls
static inline u64 twice(u64 x) { return 2 * x; }
SEC("price") u64 call_inline(const struct destination *d) { return twice(d->metric); }
//// calls
static __attribute__((noinline)) u64 half(u64 x) { return x / 2; }
SEC("price") u64 call_noinline(const struct destination *d) { return half(d->metric); }
//// calls
__attribute__((noinline)) u64 third(u64 x) { return x / 3; }
SEC("price") u64 call_global(const struct destination *d) { return third(d->metric); }
//// calls
SEC("veto") u64 call_two_helpers(const struct route *r) { return table_cost(r->prefix, r->length) != NO_ROW && counter_read(3) < 5; }
//// calls
SEC("veto") u64 call_in_condition(const struct route *r) { if (counter_add(r->length & 31, 1)) return 1; return counter_read(r->length & 31) > 3; }

//// types
SEC("tag") u64 bit_field(const struct destination *d) { union { u32 all; struct { u32 low : 5, middle : 11, high : 16; } part; } it = { d->tag }; return it.part.middle + it.part.low; }
//// types
SEC("tag") u64 copied_struct(const struct destination *d) { struct destination mine = *d; return mine.metric + mine.tag; }
//// types
SEC("tag") u64 wide_product(const struct destination *d) { return (u64)((unsigned __int128)d->moment * d->metric >> 64); }
//// types
SEC("tag") u64 floating(const struct destination *d) { return d->metric * 1.5; }
