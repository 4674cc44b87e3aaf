# In single-path mode another path goes down than that of the program: it comes back by its own, and not by that one.
storage 10
path 10
path 11
unit 0 block
sub 0 0100 0 10 11
put 500 000000000080FF0000001000
put 1000 0120000400002000
put 2000 C1C2C3C4
enable 0 0 0
ssch 0 500
choose 0
down 0 0
up 0 0
down 0 0
leave 0
up 0 0
pathdown 11
tsch 0 600
choose 0
ask 0 1
up 0 1
ask 0 0
up 0 0
down 0 0
dev 0
up 0 0
