hook veto
rank 0
r2 = *u32 r1 4
r3 = *u32 r1 8
r5 = 16
r2 >>= 16
if r2 == 49320 goto INSIDE
r5 = 12
r2 >>= 4
if r2 == 2753 goto INSIDE
r5 = 8
r2 >>= 4
if r2 == 10 goto INSIDE
r0 = 0
exit
INSIDE:
r0 = 1
if r3 >= r5 goto END
r0 = 0
END:
exit
state INSIDE rank 0
with r3 number 0 4294967295 0 0
with r5 number 8 16 0 0
state END rank 0
with r0 number 0 1 0 0
