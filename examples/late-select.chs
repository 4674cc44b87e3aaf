# A start is cleared, and its Reset overtakes the offer by the other path.
# Look at ignored select: its number is older than that of the Reset, so the device does not take it.
storage 10
path 10
path 11
unit 0 block
sub 0 0100 0 10 11
put 500 000000000080FF0000001000
put 1000 0120000400002000
put 2000 C1C2C3C4
enable 0 0 0
ssch 0 500
choose 0
csch 0
choose 0
down 0 1
up 0 1
# The old offer is still on the wire of path 0.
down 0 0
tsch 0 600
