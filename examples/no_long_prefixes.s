hook veto
rank 0
r2 = *u32 r1 8
r0 = 0
if r2 <= 24 goto END
r0 = 1
END:
exit
state END rank 0
with r0 number 0 1 0 0
