hook price
rank 0
r2 = *u64 r1 24
r2 %= 86400
r2 /= 3600
r0 = *u32 r1 12
r0 += 23
r0 -= r2
if r0 <= 16777214 goto END
r0 = 16777214
END:
exit
state END rank 0
with r0 number 0 16777214 0 0
