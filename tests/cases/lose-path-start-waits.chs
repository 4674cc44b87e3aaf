# A start waits while its device is let go, or is reset, on a path that goes down: no status is made, and the start waits on.
storage 10
path 10
path 11
unit 0 block
sub 0 0100 0 10 11
put 500 000000000080FF0000001000
put 1000 0120000400002000
put 2000 C1C2C3C4
enable 0 0 0
ssch 0 500
choose 0
xsch 0
down 0 0
up 0 0
# The device is let go on path 0.
ssch 0 500
pathdown 10
tsch 0 600
choose 0
# The Reset is on path 1.
pathup 10
pathdown 11
tsch 0 600
choose 0
down 0 0
up 0 0
choose 0
glance 0
