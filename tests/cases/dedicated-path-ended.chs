# A dedicated allegiance ends by the first Data of a later program, by its first End without unit check, and by CLEAR SUBCHANNEL; another unit check keeps it.
storage 10
path 10
path 11
path 12
path 13
unit 0 block
sub 0 0100 0 10 11 12 13
put 500 000000000080FF0000001000
put 520 000000000080FF0000001100
put 540 000000000080FF0000001200
put 1000 0C20000100003000
put 1100 0120000400002000
put 1200 0300000000000000
put 2000 C1C2C3C4
enable 0 0 0
# Read backward is rejected on path 0, and once more, as that path is kept to.
ssch 0 500
choose 0
down 0 0
up 0 0
down 0 0
dev 0
up 0 0
tsch 0 600
down 0 0
up 0 0
ssch 0 500
choose 0
down 0 0
up 0 0
down 0 0
dev 0
up 0 0
tsch 0 600
down 0 0
up 0 0
# A write is offered there too. Its Data is taken, and it loses its path before it ends: the next start finds another one.
ssch 0 520
choose 0
down 0 0
up 0 0
down 0 0
dev 0
up 0 0
pathdown 10
tsch 0 600
choose 0
down 0 1
up 0 1
# That one is rejected on path 2; what follows there ends without Data.
ssch 0 500
choose 0
down 0 2
up 0 2
down 0 2
dev 0
up 0 2
tsch 0 600
down 0 2
up 0 2
ssch 0 540
choose 0
down 0 2
up 0 2
down 0 2
dev 0
up 0 2
tsch 0 600
dev 0
up 0 2
tsch 0 600
down 0 2
up 0 2
# The next one is rejected on path 3, and the subchannel cleared.
ssch 0 500
choose 0
down 0 3
up 0 3
down 0 3
dev 0
up 0 3
csch 0
choose 0
down 0 1
up 0 1
tsch 0 600
ssch 0 500
choose 0
