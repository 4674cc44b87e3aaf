# Bits that must not be one: MIDA, the first of an address, S where the ORB has none, D in the ORB, and bytes of a transfer.
# Look at the five statuses: a program check each, and in the first four no command was sent.
storage 10
path 10
unit 0 block
sub 0 0100 0 10
put 500 000000000080FF0000001000
put 520 000000000080FF0000001008
put 540 000000000080FF0000001010
put 560 000000000080FF4000001018
put 580 000000000080FF0000001020
# MIDA, 01; then bit 0 of the address; then S, 02; then a good word.
put 1000 0121000400002000
put 1008 0120000480002000
put 1010 0122000400002000
put 1018 0120000400002000
# A command with CC, then a transfer whose count is not zero.
put 1020 03600000000000000800000100001020
enable 0 0 0
ssch 0 500
choose 0
down 0 0
up 0 0
tsch 0 600
down 0 0
up 0 0
ssch 0 520
choose 0
down 0 0
up 0 0
tsch 0 600
down 0 0
up 0 0
ssch 0 540
choose 0
down 0 0
up 0 0
tsch 0 600
down 0 0
up 0 0
# D in the ORB asks for modified indirect words.
ssch 0 560
choose 0
down 0 0
up 0 0
tsch 0 600
down 0 0
up 0 0
# The command ends at once, and the transfer is fetched.
ssch 0 580
choose 0
down 0 0
up 0 0
down 0 0
dev 0
up 0 0
dev 0
up 0 0
tsch 0 600
