# A write whose bytes are chained from a list of indirect words to a second word, then a read by command chaining; two paths.
# Look at the order in which the device takes the bytes: A1A2, A3, then A4A5. The second program reads five bytes of the block.
storage 10
path 10
path 11
unit 0 block
sub 0 0100 0 10 11
put 500 0000CAFE0080FF0000001000
put 1000 0184000300003000
put 1008 0064000200003010
put 1010 0220000500005000
put 520 000000000080FF0000001020
put 1020 0220000500005100
put 2FFE A1A2
put 3000 00002FFE00004000
put 3010 00004001
put 4000 A3A4A5
enable 0 3 0
ssch 0 500
