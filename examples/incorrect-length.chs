# A read of 4 bytes from a block that has 64, twice: without SLI incorrect length is shown, with SLI it is not.
# Look at 40 in the second byte of the first status, though all four bytes were stored.
storage 10
path 10
unit 0 block
sub 0 0100 0 10
put 500 000000000080FF0000001000
put 520 000000000080FF0000001008
# The flags are 00, then 20.
put 1000 0200000400003000
put 1008 0220000400003000
enable 0 0 0
ssch 0 500
choose 0
down 0 0
up 0 0
down 0 0
dev 0
dev 0
up 0 0
down 0 0
dev 0
up 0 0
tsch 0 600
down 0 0
up 0 0
ssch 0 520
choose 0
down 0 0
up 0 0
down 0 0
dev 0
dev 0
up 0 0
down 0 0
dev 0
up 0 0
tsch 0 600
