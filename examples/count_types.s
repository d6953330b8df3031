hook count
rank 0
r1 = *u32 r1 20
if r1 <= 5 goto KNOWN
r1 = 0
KNOWN:
r2 = 1
call 1
exit
state KNOWN rank 0
with r1 number 0 5 0 0
