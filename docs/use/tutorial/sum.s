hook price
rank 10
r1 = 10
r0 = 0
L:
r0 += r1
r1 += -1
if r1 != 0 goto L
exit
state L rank 0 r1 * 1
with r0 number 0 18446744073709551615 0 0
with r1 number 1 10 0 0
