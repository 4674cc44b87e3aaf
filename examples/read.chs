# Four bytes are written into a block, and a second program reads them back.
# Look at the bytes that are shown last; in the read the device supplies them in its second turn.
storage 10
path 10
unit 0 block
sub 0 0100 0 10
# Two programs of one command each: the one at 1000 writes, the one at 1008 reads.
put 500 000000000080FF0000001000
put 520 000000000080FF0000001008
put 1000 0120000400002000
put 1008 0220000400003000
put 2000 C1C2C3C4
enable 0 0 0
ssch 0 500
choose 0
down 0 0
up 0 0
down 0 0
dev 0
up 0 0
down 0 0
dev 0
up 0 0
down 0 0
dev 0
up 0 0
tsch 0 600
# The device is let go before the next program is offered.
down 0 0
up 0 0
ssch 0 520
choose 0
down 0 0
up 0 0
down 0 0
dev 0
dev 0
up 0 0
down 0 0
dev 0
up 0 0
tsch 0 600
show 3000 4
