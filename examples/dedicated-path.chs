# A unit check dedicates the subchannel to its path: a start that does not allow this path finds none.
# Look at the second ORB, whose mask E0 leaves path 3 out, and at its deferred condition code 3, 0380.
storage 10
path 10
path 11
path 12
path 13
unit 0 reject
sub 0 0100 0 10 11 12 13
put 500 000000000080100000001000
put 520 000000000080E00000001000
put 1000 0120000400002000
put 2000 C1C2C3C4
enable 0 0 0
ssch 0 500
choose 0
down 0 3
up 0 3
down 0 3
dev 0
up 0 3
tsch 0 600
# The allegiance is to path 3; the device has to be let go before the choice is made.
ssch 0 520
choose 0
down 0 3
up 0 3
choose 0
tsch 0 600
