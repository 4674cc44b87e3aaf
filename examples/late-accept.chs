# A start is cleared while its offer is accepted: the accept comes too late and does nothing.
# Look at ignored accept: the Reset that was sent by the other path is what both sides go on with.
storage 10
path 10
path 11
unit 0 block
sub 0 0100 0 10 11
put 500 000000000080FF0000001000
put 1000 0120000400002000
put 2000 C1C2C3C4
enable 0 0 0
ssch 0 500
choose 0
down 0 0
# The accept is on its way as the clear comes.
csch 0
choose 0
up 0 0
down 0 1
up 0 1
tsch 0 600
