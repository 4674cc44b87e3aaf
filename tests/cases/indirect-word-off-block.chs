# An indirect word of format 1 is off its block.
storage 10
path 10
unit 0 block
sub 0 0100 0 10
put 500 000000000080FF0000001000
put 1000 0120000400002000
put 2000 C1C2C3C4
enable 0 0 0
put 1000 0124000400003000
put 3000 00002FFE00004010
put 2FFE A1A2
put 4000 A3A4
ssch 0 500
choose 0
down 0 0
up 0 0
down 0 0
dev 0
up 0 0
down 0 0
dev 0
up 0 0
down 0 0
dev 0
up 0 0
tsch 0 600
