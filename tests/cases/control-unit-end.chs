# A control unit that was found busy tells its end by one attention, which makes no status; a restart does not forget it, and the next attention is one again.
storage 10
path 10
path 11
unit 0 block
unit 1 block
share 0 1
sub 0 0100 0 10
sub 1 0101 1 11
put 500 000000000080FF0000001000
put 1000 0120000400002000
enable 0 0 0
enable 1 0 0
ssch 0 500
ssch 1 500
choose 0
down 0 0
choose 1
down 1 0
up 1 0
csch 0
choose 0
down 0 0
up 0 0
up 0 0
tsch 0 600
restart 0
notice 0 0
up 0 0
choose 0
down 0 0
up 0 0
attn 0 0
up 0 0
tsch 0 600
down 0 0
attn 0 0
up 0 0
tsch 0 600
down 0 0
