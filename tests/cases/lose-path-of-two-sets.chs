# A channel path goes down by which the programs of two subchannel sets have to come back: both are over, and both ask.
storage 10
sets 2
path 10
path 11
unit 0 block
unit 1 block
sub 30000 0100 0 10 11
sub 0 0101 1 11 10
put 500 000000000080FF0000001000
put 520 000000000080400000001000
put 1000 0120000400002000
enable 30000 0 0
ssch 30000 500
choose 30000
down 30000 0
up 30000 0
down 30000 0
leave 0
up 30000 0
enable 0 0 0
ssch 0 520
choose 0
down 0 1
up 0 1
down 0 1
leave 1
up 0 1
pathdown 10
glance 30000
glance 0
# The requests stand in the order of the subchannels' lines.
tpi FF 800
tpi FF 800
tpi FF 800
pathdown 11
glance 0
sysreset
glance 30000
glance 0
tpi FF 800
stcrw 800
