# Three commands of one program, by command chaining: block 5 becomes current, is written, and is read back.
# Look at each took end but the last: no status is shown, and the next signal down is the next command.
storage 10
path 10
unit 0 block
sub 0 0100 0 10
put 500 000000000080FF0000001000
# CC is 40 in the flags of the first two words, beside SLI, 20.
put 1000 0760000200002010
put 1008 0160000400002000
put 1010 0220000400003000
put 2000 C1C2C3C4
put 2010 0005
enable 0 0 0
ssch 0 500
choose 0
down 0 0
up 0 0
down 0 0
# The number of the block goes to the device as the bytes of a write do.
dev 0
up 0 0
down 0 0
dev 0
up 0 0
down 0 0
dev 0
up 0 0
down 0 0
# The write.
dev 0
up 0 0
down 0 0
dev 0
up 0 0
down 0 0
dev 0
up 0 0
down 0 0
# The read, whose End is the last.
dev 0
dev 0
up 0 0
down 0 0
dev 0
up 0 0
tsch 0 600
show 3000 4
