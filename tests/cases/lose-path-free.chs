# A path goes down while nothing is there: the masks change, and later starts go by the other path.
storage 10
path 10
path 11
unit 0 block
sub 0 0100 0 10 11
put 500 000000000080FF0000001000
put 1000 0120000400002000
put 2000 C1C2C3C4
enable 0 0 0
pathdown 10
tsch 0 600
choose 0
stsch 0 700
show 708 8
ssch 0 500
choose 0
stsch 0 700
show 708 8
pathup 10
stsch 0 700
show 708 8
down 0 1
up 0 1
