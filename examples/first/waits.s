hook veto
rank 0
AGAIN:
r1 = 7
call 2
r0 &= 16777215
if r0 != 1 goto AGAIN
r0 = 0
exit
state AGAIN rank 0
