# Channel end is cleared, and the device works on: a start behind it, its end, the loss of its path, and a subchannel that is disabled.
storage 10
path 10
unit 0 block
sub 0 0100 0 10
put 500 000000000080FF0000001000
put 1000 0320000400000000
enable 0 0 0
ssch 0 500
choose 0
down 0 0
up 0 0
down 0 0
dev 0
up 0 0
tsch 0 600
stsch 0 700
# A start behind it is cancelled. Device end, secondary status, is shown by itself.
ssch 0 500
stsch 0 700
xsch 0
stsch 0 700
xsch 0
dev 0
up 0 0
tsch 0 600
down 0 0
up 0 0
# Its path goes down: no primary status again.
ssch 0 500
choose 0
down 0 0
up 0 0
down 0 0
dev 0
up 0 0
tsch 0 600
pathdown 10
tsch 0 600
pathup 10
choose 0
down 0 0
up 0 0
# The subchannel is not enabled any more as device end comes: no status is made, and nothing is active.
ssch 0 500
choose 0
down 0 0
up 0 0
down 0 0
dev 0
up 0 0
tsch 0 600
put 704 00010100
msch 0 700
glance 0
dev 0
up 0 0
glance 0
stsch 0 700
tsch 0 600
down 0 0
up 0 0
