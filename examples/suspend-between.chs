# A program is suspended before its second block; U in the ORB leaves the intermediate status out.
# Look at tsch, which finds no status, at the bit 0020 in stsch, and at the read, which goes on after rsch.
storage 10
path 10
unit 0 block
sub 0 0100 0 10
# S is 08 in byte 0, and U is 08 in byte 1, of the second word of the ORB.
put 500 000000000888FF0000001000
put 1000 0160000400002000
put 1008 0222000400003000
put 2000 C1C2C3C4
enable 0 0 0
ssch 0 500
choose 0
down 0 0
up 0 0
down 0 0
dev 0
up 0 0
down 0 0
dev 0
up 0 0
down 0 0
dev 0
up 0 0
# The device is let go instead of a command.
down 0 0
up 0 0
tsch 0 600
stsch 0 700
put 1008 0220000400003000
rsch 0
choose 0
down 0 0
up 0 0
down 0 0
dev 0
dev 0
up 0 0
down 0 0
dev 0
up 0 0
tsch 0 600
show 3000 4
