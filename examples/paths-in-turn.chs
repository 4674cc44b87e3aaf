# Programs are offered on the allowed paths in turn; the logical-path mask of the ORB is A0, so on path 0 and path 2.
# Look at the offers: 0, 2, 0 again, and 2 alone while channel path 10 is down.
storage 10
path 10
path 11
path 12
unit 0 block
sub 0 0100 0 10 11 12
put 500 000000000080A00000001000
put 1000 0120000400002000
put 2000 C1C2C3C4
enable 0 0 0
# Each offer is cancelled and let go.
ssch 0 500
choose 0
xsch 0
down 0 0
up 0 0
down 0 0
up 0 0
ssch 0 500
choose 0
xsch 0
down 0 2
up 0 2
down 0 2
up 0 2
ssch 0 500
choose 0
xsch 0
down 0 0
up 0 0
down 0 0
up 0 0
# Path 0 is passed over.
pathdown 10
ssch 0 500
choose 0
xsch 0
down 0 2
up 0 2
down 0 2
up 0 2
ssch 0 500
choose 0
