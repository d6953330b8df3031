hook tag
rank 0
r0 = *u32 r1 16
if r0 != 0 goto END
r0 = *u32 r1 8
END:
exit
state END rank 0
with r0 number 0 4294967295 0 0
