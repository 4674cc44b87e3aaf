# Lines that are refused, and why: operands of a start, wires on which nothing waits, a unit that does not act now, and what is not
# configured.
storage 10
path 10
unit 0 block
sub 0 0100 0 10
put 500 0000CAFE0080FF0000001000
put 510 0000CAFE0084FF0000001000
put 520 0000CAFE0080FF0100001000
put 530 0000CAFE0080FF0280001000
put 540 0000CAFE0080FF0080001000
enable 0 0 0
ssch 0 502
ssch 0 FFFC
ssch 0 510
ssch 0 520
ssch 0 530
ssch 0 540
stcps 504
rchp 100
prefix 1 1000
down 0 0
ssch 0 500
choose 0
dev 0
down 0 0
down 0 0
dev 0
attn 0 0
notice 0 0
ask 0 0
down 0 1
choose 5
dev 1
pathup 10
pathreset 10
pathdown 99
leave 0
leave 0
pathdown 10
pathdown 10
