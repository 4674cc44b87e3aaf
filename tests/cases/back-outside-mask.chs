# A program that is away comes back by a path outside the logical-path mask, in multipath mode.
storage 10
path 10
path 11
path 12
path 13
path 14
path 15
path 16
path 17
unit 0 block
sub 0 0100 0 10 11 12 13 14 15 16 17
put 500 000000000080240000001000
put 1000 0120000400002000
put 2000 C1C2C3C4
enable 0 0 1
ssch 0 500
choose 0
down 0 2
up 0 2
down 0 2
leave 0
ask 0 5
up 0 5
stcps 800
down 0 5
up 0 2
stcps 800
ask 0 5
up 0 5
stcps 800
