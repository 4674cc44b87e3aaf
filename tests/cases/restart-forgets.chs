# A restart forgets what the device stored; a unit that is not there.
storage 10
path 10
unit 0 block
sub 0 0100 0 10
put 500 000000000080FF0000001000
put 1000 0120000400002000
put 2000 C1C2C3C4
enable 0 0 0
ssch 0 500
choose 0
down 0 0
up 0 0
down 0 0
dev 0
up 0 0
down 0 0
dev 0
up 0 0
down 0 0
dev 0
up 0 0
tsch 0 600
put 520 000000000080FF0000001008
put 1008 0220000400003000
put 3000 FFFFFFFF
down 0 0
up 0 0
restart 0
restart 1
notice 0 0
up 0 0
choose 0
down 0 0
up 0 0
ssch 0 520
choose 0
down 0 0
up 0 0
down 0 0
dev 0
dev 0
up 0 0
down 0 0
dev 0
up 0 0
tsch 0 600
show 3000 4
