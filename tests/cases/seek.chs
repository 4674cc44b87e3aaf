# A block is sought, written and left; then one is sought that is not there, and the sense byte says so.
storage 10
path 10
unit 0 block
sub 0 0100 0 10
put 500 000000000080FF0000001000
put 1000 0120000400002000
put 2000 C1C2C3C4
enable 0 0 0
put 2010 0005
put 2020 0020
put 1000 0760000200002010
put 1008 0160000400002000
put 1010 0B60000100002000
put 1018 0720000200002020
ssch 0 500
choose 0
down 0 0
up 0 0
down 0 0
dev 0
up 0 0
down 0 0
dev 0
up 0 0
down 0 0
dev 0
up 0 0
down 0 0
dev 0
up 0 0
down 0 0
dev 0
up 0 0
down 0 0
dev 0
up 0 0
down 0 0
dev 0
up 0 0
dev 0
up 0 0
down 0 0
dev 0
up 0 0
down 0 0
dev 0
up 0 0
down 0 0
dev 0
up 0 0
down 0 0
up 0 0
tsch 0 600
put 1000 0420000100005000
ssch 0 500
choose 0
down 0 0
up 0 0
down 0 0
dev 0
dev 0
up 0 0
down 0 0
dev 0
up 0 0
down 0 0
up 0 0
tsch 0 600
show 5000 1
