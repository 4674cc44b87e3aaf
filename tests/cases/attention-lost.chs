# Attention that is asked for on a path that is down is lost.
storage 10
path 10
path 11
unit 0 block
sub 0 0100 0 10 11
put 500 000000000080FF0000001000
put 1000 0120000400002000
put 2000 C1C2C3C4
enable 0 0 0
pathdown 10
attn 0 0
up 0 0
pathup 10
attn 0 0
up 0 0
tsch 0 600
down 0 0
