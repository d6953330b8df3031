hook count
rank 0
r6 = *u64 r1 8
r7 = *u32 r1 24
r7 &= 31
r8 = r7
r8 <<= 4
r9 = map 1 0
r9 += r8
r2 = *u64 r9 0
if r2 == r6 goto SAME
*u64 r9 0 = r6
*u64 r9 8 = 0
SAME:
r2 = *u64 r9 8
r2 += 1
*u64 r9 8 = r2
if r2 <= 100 goto END
r1 = r7
r1 += 128
r2 = 1
call 1
END:
r0 = 0
exit
state SAME rank 0
with r7 number 0 31 0 0
with r9 map 1 0 496 15 0
state END rank 0
