# A path goes down that the program is not on: it works on.
# Look at tsch, which finds no status, and at the last byte that is shown: the path-available mask has path 0 alone, 80.
storage 10
path 10
path 11
unit 0 block
sub 0 0100 0 10 11
put 500 000000000080FF0000001000
put 1000 0120000400002000
put 2000 C1C2C3C4
enable 0 0 0
ssch 0 500
choose 0
down 0 0
up 0 0
down 0 0
# The program is on path 0.
pathdown 11
tsch 0 600
choose 0
stsch 0 700
show 708 8
dev 0
up 0 0
