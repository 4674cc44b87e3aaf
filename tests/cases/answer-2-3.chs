# Lesson 2, question 3: a read of eight bytes of a block without SLI in its last block.
# Look at its last lines: what stands before them is the script of the lesson.
storage 10
path 10
unit 0 block
sub 0 0100 0 10
put 500 0000CAFE0080FF0000001000
put 1000 0740000200002000
put 1008 0180000400002010
put 1010 0040000400002020
put 1018 0280000400003000
put 1020 0000000400003100
put 2000 0005
put 2010 C1C2C3C4
put 2020 D1D2D3D4
enable 0 0 0
ssch 0 500
choose 0
down 0 0
up 0 0
down 0 0
dev 0
up 0 0
down 0 0
dev 0
up 0 0
down 0 0
dev 0
up 0 0
down 0 0
dev 0
up 0 0
down 0 0
dev 0
up 0 0
down 0 0
dev 0
up 0 0
down 0 0
dev 0
up 0 0
down 0 0
dev 0
dev 0
up 0 0
down 0 0
dev 0
up 0 0
down 0 0
dev 0
up 0 0
down 0 0
up 0 0
tsch 0 600
show 3000 4
show 3100 4
