# Another path than that of the offer goes down: the offer stands, and the path is marked all the same.
storage 10
path 10
path 11
unit 0 block
sub 0 0100 0 10 11
put 500 000000000080FF0000001000
put 1000 0120000400002000
put 2000 C1C2C3C4
enable 0 0 0
ssch 0 500
choose 0
pathdown 11
tsch 0 600
choose 0
stsch 0 700
show 708 8
down 0 0
up 0 0
