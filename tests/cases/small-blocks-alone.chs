# T alone has no effect: without H the words of a list are of format 1, for blocks of 2K.
storage 10
path 10
unit 0 block
sub 0 0100 0 10
put 500 000000000081FF0000001000
put 1000 0124000400003000
put 1008 0224000400003008
put 2FFE A1A2
put 3000 00002FFE0000480000005FFE00007800
put 4800 A3A4
put 520 000000000081FF0000001008
enable 0 0 0
ssch 0 500
choose 0
down 0 0
up 0 0
down 0 0
dev 0
up 0 0
down 0 0
dev 0
up 0 0
down 0 0
dev 0
up 0 0
down 0 0
dev 0
up 0 0
tsch 0 600
down 0 0
up 0 0
ssch 0 520
choose 0
down 0 0
up 0 0
down 0 0
dev 0
dev 0
up 0 0
down 0 0
dev 0
up 0 0
down 0 0
dev 0
up 0 0
tsch 0 600
down 0 0
up 0 0
show 5FFE 4
show 7800 4
