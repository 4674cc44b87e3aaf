# Words that are not allowed: MIDA and a transfer off its boundary in format 0; in format 1 the codes 18 and 00.
storage 10
path 10
unit 0 block
sub 0 0100 0 10
enable 0 0 0
put 500 000000000000FF0000001000
put 1000 0100200001000004
ssch 0 500
choose 0
down 0 0
up 0 0
tsch 0 600
down 0 0
up 0 0
# A command with CC, and behind it a transfer to 1044.
put 1000 03000000600000011800104400000000
ssch 0 500
choose 0
down 0 0
up 0 0
down 0 0
dev 0
up 0 0
dev 0
up 0 0
tsch 0 600
down 0 0
up 0 0
put 500 000000000080FF0000001000
put 1000 1820000400002000
ssch 0 500
choose 0
down 0 0
up 0 0
tsch 0 600
down 0 0
up 0 0
put 1000 0020000400002000
ssch 0 500
choose 0
down 0 0
up 0 0
tsch 0 600
