# Lists of indirect words that are not allowed, each a program check as the word is needed.
# Look at the counts left: two bytes went before the second word of a list was found bad, none before the first.
storage 10
path 10
unit 0 block
sub 0 0100 0 10
put 500 000000000080FF0000001000
put 520 000000000082FF0000001008
put 540 000000000082FF0000001010
put 560 000000000082FF0000001018
put 2FFE A1A2
# Format 1: the second word is off its block of 2K.
put 1000 0124000400003000
put 3000 00002FFE00004010
# Format 2: the second word is off its block of 4K.
put 1008 0124000400003010
put 3010 0000000000002FFE0000000000004800
# Format 2: the second word is past 31 bits.
put 1010 0124000400003020
put 3020 0000000000002FFE0000000100004000
# Format 2: the list is off a doubleword boundary.
put 1018 0124000400003034
put 3034 0000000000002FFE0000000000004000
# Format 1: the list is off a word boundary; bit 0 of its first word is one.
put 580 000000000080FF0000001020
put 5A0 000000000080FF0000001028
put 1020 0124000400003052
put 3052 00002FFE00004000
put 1028 0124000400003060
put 3060 80002FFE00004000
enable 0 0 0
ssch 0 500
choose 0
down 0 0
up 0 0
down 0 0
dev 0
up 0 0
down 0 0
dev 0
up 0 0
down 0 0
dev 0
up 0 0
tsch 0 600
down 0 0
up 0 0
ssch 0 520
choose 0
down 0 0
up 0 0
down 0 0
dev 0
up 0 0
down 0 0
dev 0
up 0 0
down 0 0
dev 0
up 0 0
tsch 0 600
down 0 0
up 0 0
ssch 0 540
choose 0
down 0 0
up 0 0
down 0 0
dev 0
up 0 0
down 0 0
dev 0
up 0 0
down 0 0
dev 0
up 0 0
tsch 0 600
down 0 0
up 0 0
ssch 0 560
choose 0
down 0 0
up 0 0
down 0 0
dev 0
up 0 0
down 0 0
dev 0
up 0 0
tsch 0 600
down 0 0
up 0 0
ssch 0 580
choose 0
down 0 0
up 0 0
down 0 0
dev 0
up 0 0
down 0 0
dev 0
up 0 0
tsch 0 600
down 0 0
up 0 0
ssch 0 5A0
choose 0
down 0 0
up 0 0
down 0 0
dev 0
up 0 0
down 0 0
dev 0
up 0 0
tsch 0 600
