# A write over a list of indirect words of format 1: 4 bytes each, for blocks of 2K.
# Look at the two gives with bytes: A1A2 up to the end of a block at 2FFE, then A3A4 from the block at 4000.
storage 10
path 10
unit 0 block
sub 0 0100 0 10
put 500 000000000080FF0000001000
put 1000 0120000400002000
put 2000 C1C2C3C4
enable 0 0 0
# IDA is 04 in the flags: 3000 is the address of the list. The first word may name any byte, each later one begins a block.
put 1000 0124000400003000
put 3000 00002FFE00004000
put 2FFE A1A2
put 4000 A3A4
ssch 0 500
choose 0
down 0 0
up 0 0
down 0 0
dev 0
up 0 0
down 0 0
dev 0
up 0 0
down 0 0
dev 0
up 0 0
down 0 0
dev 0
up 0 0
tsch 0 600
