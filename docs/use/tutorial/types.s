hook count
rank 0
r1 = 1
call 3
r1 = r0
r2 = 1
call 1
exit
