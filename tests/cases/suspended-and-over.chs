# A suspended program that is halted or cancelled: its address and its count stay, and no program is left.
storage 10
path 10
unit 0 block
sub 0 0100 0 10
put 500 000000000880FF0000001000
# No operation, which leaves its count of 4, chained to a block with S.
put 1000 0360000400000000
put 1008 0122000400002000
enable 0 0 0
ssch 0 500
choose 0
down 0 0
up 0 0
down 0 0
dev 0
up 0 0
dev 0
up 0 0
down 0 0
up 0 0
# Its status is pending as it is halted, and is cleared by the test, with the functions and the program.
stsch 0 700
xsch 0
hsch 0
glance 0
tsch 0 600
stsch 0 700
glance 0
xsch 0
choose 0
# Its status is pending as it is halted, and the halt is performed first: intermediate status is turned off.
ssch 0 500
choose 0
down 0 0
up 0 0
down 0 0
dev 0
up 0 0
dev 0
up 0 0
down 0 0
up 0 0
hsch 0
choose 0
tsch 0 600
glance 0
# Its status is cleared before it is halted.
ssch 0 500
choose 0
down 0 0
up 0 0
down 0 0
dev 0
up 0 0
dev 0
up 0 0
down 0 0
up 0 0
tsch 0 600
stsch 0 700
hsch 0
stsch 0 700
rsch 0
choose 0
tsch 0 600
# It is cancelled as it is to be resumed.
ssch 0 500
choose 0
down 0 0
up 0 0
down 0 0
dev 0
up 0 0
dev 0
up 0 0
down 0 0
up 0 0
tsch 0 600
rsch 0
rsch 0
stsch 0 700
xsch 0
stsch 0 700
xsch 0
choose 0
# It is cleared.
ssch 0 500
choose 0
down 0 0
up 0 0
down 0 0
dev 0
up 0 0
dev 0
up 0 0
down 0 0
up 0 0
tsch 0 600
csch 0
stsch 0 700
rsch 0
choose 0
down 0 0
up 0 0
tsch 0 600
choose 0
