# Two subchannels of one unit lose a channel path that both have, the one where it is offered, the other where it is connected.
storage 10
path 10
path 11
unit 0 block
sub 0 0100 0 10 11
sub 1 0101 0 11 10
put 500 000000000080FF0000001000
put 1000 0120000400002000
put 2000 C1C2C3C4
enable 0 0 0
enable 1 0 0
ssch 0 500
choose 0
down 0 0
up 0 0
ssch 1 500
choose 1
down 1 0
pathdown 11
up 1 0
tsch 1 640
tsch 0 600
pathdown 10
down 0 0
tsch 0 600
choose 0
choose 1
pathup 10
choose 0
choose 1
down 0 0
down 1 1
up 0 0
up 1 1
