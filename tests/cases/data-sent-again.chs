# A program of a unit's second side leaves its path, and the answer to its Data is lost: the Data is sent again by the other path, once, and moves nothing.
storage 10
path 10
path 11
path 12
unit 0 block
sub 0 0100 0 10
sub 1 0101 0 11 12
put 500 000000000080FF0000001000
put 1000 0280000200003000
put 1008 0020000200003100
put 3000 FFFFFFFF
put 3100 FFFFFFFF
enable 0 0 0
enable 1 0 1
ssch 1 500
choose 1
down 1 0
up 1 0
down 1 0
dev 0
dev 0
up 1 0
leave 0
up 1 0
pathdown 11
down 1 0
show 3000 4
put 3000 E1E2
# The first side is told busy while that program is away.
ssch 0 500
choose 0
down 0 0
up 0 0
# The program comes back by path 1, and its chunk with it.
ask 0 1
dev 0
up 1 1
down 1 1
dev 0
dev 0
up 1 1
show 3000 4
down 1 1
# The next chunk.
dev 0
up 1 1
down 1 1
dev 0
up 1 1
tsch 1 640
show 3000 4
show 3100 4
down 1 1
up 1 1
# The device is free for the first side.
choose 0
down 0 0
up 0 0
