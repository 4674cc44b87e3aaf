# A count of zero: a program check in format 0; in format 1 only with CD or by data chaining.
# Look at the three statuses: 20 for format 0, 20 for CD, and a write of no bytes that ends well.
storage 10
path 10
unit 0 block
sub 0 0100 0 10
put 500 000000000000FF0000001000
put 520 000000000080FF0000001008
put 540 000000000080FF0000001010
# Format 0 without flags but SLI; format 1 with CD; format 1 without it.
put 1000 0100200020000000
put 1008 01A0000000002000
put 1010 0120000000002000
enable 0 0 0
ssch 0 500
choose 0
down 0 0
up 0 0
tsch 0 600
down 0 0
up 0 0
ssch 0 520
choose 0
down 0 0
up 0 0
tsch 0 600
down 0 0
up 0 0
ssch 0 540
choose 0
down 0 0
up 0 0
down 0 0
dev 0
up 0 0
down 0 0
dev 0
up 0 0
tsch 0 600
