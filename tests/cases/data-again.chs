# The Data of a read comes again by another path, as its answer was lost: its bytes are stored and counted once, though they used up a count.
storage 10
path 10
path 11
unit 0 block
sub 0 0100 0 10 11
put 500 000000000080800000001000
put 520 000000000080FF0000001008
put 1000 0120000800002000
put 1008 02800004000030000020000400003100
put 2000 C1C2C3C4C5C6C7C8
enable 0 0 1
ssch 0 500
choose 0
down 0 0
up 0 0
down 0 0
dev 0
up 0 0
down 0 0
dev 0
up 0 0
down 0 0
dev 0
up 0 0
tsch 0 600
down 0 0
up 0 0
ssch 0 520
choose 0
down 0 1
up 0 1
down 0 1
dev 0
dev 0
up 0 1
show 3000 5
put 3000 EEEE
leave 0
up 0 1
pathdown 11
ask 0 0
up 0 0
down 0 0
dev 0
up 0 0
show 3000 5
show 3100 5
down 0 0
dev 0
up 0 0
down 0 0
dev 0
up 0 0
tsch 0 600
down 0 0
up 0 0
show 3000 5
show 3100 5
