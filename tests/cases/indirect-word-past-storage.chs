# A word of format 1 may name an address past storage, which is found as its bytes are stored; one of format 2 may not, which is found as it is needed.
storage 10
path 10
unit 0 block
sub 0 0100 0 10
put 500 000000000080FF0000001000
put 520 000000000082FF0000001008
put 1000 0224000400003000
put 1008 0224000400003008
put 3000 7FFFF800
put 3008 0000000000010000
enable 0 0 0
ssch 0 500
choose 0
down 0 0
up 0 0
down 0 0
dev 0
dev 0
up 0 0
down 0 0
dev 0
up 0 0
tsch 0 600
down 0 0
up 0 0
ssch 0 520
choose 0
down 0 0
up 0 0
down 0 0
dev 0
dev 0
up 0 0
tsch 0 600
down 0 0
up 0 0
