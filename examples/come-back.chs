# In multipath mode a program that left its path comes back by another one, as its own went down.
# Look at took back and took grant on path 1, and at the write, which ends there as if nothing had been.
storage 10
path 10
path 11
unit 0 block
sub 0 0100 0 10 11
put 500 000000000080FF0000001000
put 1000 0120000400002000
put 2000 C1C2C3C4
enable 0 0 1
ssch 0 500
choose 0
down 0 0
up 0 0
down 0 0
leave 0
up 0 0
pathdown 10
tsch 0 600
choose 0
# The unit asks for path 1, and is granted it: the command goes on where it was.
ask 0 1
up 0 1
down 0 1
dev 0
up 0 1
down 0 1
dev 0
up 0 1
down 0 1
dev 0
up 0 1
tsch 0 600
