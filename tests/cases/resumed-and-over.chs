# A suspended program that is resumed finds no path, loses its path, or meets a block that is wrong: its address and its count are shown.
storage 10
path 10
unit 0 block
sub 0 0100 0 10
put 500 000000000880FF0000001000
# No operation, which leaves its count of 4, chained to a block with S.
put 1000 0360000400000000
put 1008 0122000400002000
enable 0 0 0
ssch 0 500
choose 0
down 0 0
up 0 0
down 0 0
dev 0
up 0 0
dev 0
up 0 0
down 0 0
up 0 0
tsch 0 600
# Its only path is down: deferred condition code 3.
pathdown 10
rsch 0
choose 0
tsch 0 600
pathup 10
# Its path goes down after it is offered: interface-control check.
ssch 0 500
choose 0
down 0 0
up 0 0
down 0 0
dev 0
up 0 0
dev 0
up 0 0
down 0 0
up 0 0
tsch 0 600
rsch 0
choose 0
pathdown 10
tsch 0 600
pathup 10
choose 0
down 0 0
up 0 0
# Its block has no command any more: program check.
ssch 0 500
choose 0
down 0 0
up 0 0
down 0 0
dev 0
up 0 0
dev 0
up 0 0
down 0 0
up 0 0
tsch 0 600
put 1008 0020000400002000
rsch 0
choose 0
down 0 0
up 0 0
tsch 0 600
