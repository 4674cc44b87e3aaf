# The key of a block guards a list as it does data: fetch protection refuses it to another access key; without it any key may fetch, and none but its own may store.
storage 10
path 10
unit 0 block
sub 0 0100 0 10
put 500 000000002080FF0000001000
put 1000 0124000400003000
put 2FFE A1A2
put 3000 00002FFE00004000
put 4000 A3A4
key 2000 10
key 3000 18
enable 0 0 0
ssch 0 500
choose 0
down 0 0
up 0 0
down 0 0
dev 0
up 0 0
down 0 0
dev 0
up 0 0
tsch 0 600
down 0 0
up 0 0
key 3000 10
ssch 0 500
choose 0
down 0 0
up 0 0
down 0 0
dev 0
up 0 0
down 0 0
dev 0
up 0 0
down 0 0
dev 0
up 0 0
down 0 0
dev 0
up 0 0
tsch 0 600
down 0 0
up 0 0
put 1000 0224000200003000
put 2FFE F1F2
ssch 0 500
choose 0
down 0 0
up 0 0
down 0 0
dev 0
dev 0
up 0 0
down 0 0
dev 0
up 0 0
tsch 0 600
down 0 0
up 0 0
show 2FFE 2
key 3000 18
put 500 000000001080FF0000001000
ssch 0 500
choose 0
down 0 0
up 0 0
down 0 0
dev 0
dev 0
up 0 0
down 0 0
dev 0
up 0 0
tsch 0 600
down 0 0
up 0 0
show 2FFE 2
