# Command 03 moves no byte. With a count of 4 and without SLI, incorrect length is shown; L in the ORB leaves it out.
# Look at the third word of each status: 08400004, then 08000004.
storage 10
path 10
unit 0 block
sub 0 0100 0 10
put 500 000000000080FF0000001000
put 1000 0120000400002000
put 2000 C1C2C3C4
enable 0 0 0
put 520 000000000080FF8000001000
put 1000 0300000400000000
ssch 0 500
choose 0
down 0 0
up 0 0
down 0 0
dev 0
up 0 0
tsch 0 600
# Device end, then the device is let go.
dev 0
up 0 0
tsch 0 600
down 0 0
up 0 0
ssch 0 520
choose 0
down 0 0
up 0 0
down 0 0
dev 0
up 0 0
tsch 0 600
