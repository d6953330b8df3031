hook count
rank 0
r1 = 1
call 3
if r0 > 255 goto END
r1 = r0
r2 = 1
call 1
END:
exit
state END rank 0
with r0 number 0 256 0 0
