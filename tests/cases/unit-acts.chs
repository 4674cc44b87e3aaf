# What units do where they may, and what is refused: paths and sides that are not there, a unit that rests or is connected.
storage 10
path 10
path 11
unit 0 block
unit 1 block
sub 0 0100 0 10
sub 1 0101 1 11
put 500 000000000080FF0000001000
put 1000 0120000400002000
enable 0 3 0
enable 1 1 0
ask 0 0
ask 0 8
leave 0
attn 0 1
attn 0 0 1
notice 0 0
restart 2
ssch 0 500
choose 0
down 0 0
up 0 0
ask 0 0
leave 0
leave 0
ask 0 1
ask 0 0
up 0 0
up 0 0
down 0 0
down 0 0
dev 0
attn 0 0
