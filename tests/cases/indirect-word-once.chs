# A word of a list is fetched once, as its piece is needed: what is put in its place afterwards leads nowhere.
storage 10
path 10
unit 0 block
sub 0 0100 0 10
put 500 000000000080FF0000001000
put 1000 0124000400003000
put 2000 F1F2
put 2FFE A1A2
put 3000 00002FFE00004000
put 4000 A3A4
enable 0 0 0
ssch 0 500
choose 0
down 0 0
up 0 0
down 0 0
dev 0
up 0 0
put 3000 00002000
leave 0
up 0 0
ask 0 0
down 0 0
up 0 0
down 0 0
dev 0
up 0 0
down 0 0
dev 0
up 0 0
down 0 0
dev 0
up 0 0
down 0 0
dev 0
up 0 0
tsch 0 600
down 0 0
up 0 0
put 1000 0224000400003010
put 3010 000057FE00006000
ssch 0 500
choose 0
down 0 0
up 0 0
put 3010 00005000
down 0 0
dev 0
dev 0
up 0 0
down 0 0
dev 0
up 0 0
down 0 0
dev 0
up 0 0
tsch 0 600
down 0 0
up 0 0
show 5000 2
show 57FE 2
show 6000 4
