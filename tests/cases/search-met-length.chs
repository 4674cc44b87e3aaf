# A search that is met ends the program where its length is incorrect: status modifier leads to no next command.
storage 10
path 10
unit 0 block
sub 0 0100 0 10
put 500 000000000080FF0000001000
put 1000 3140000300002000
put 1008 0800000000001000
put 1010 0220004000003000
put 2000 000009
enable 0 0 0
ssch 0 500
choose 0
down 0 0
up 0 0
down 0 0
dev 0
up 0 0
down 0 0
dev 0
up 0 0
down 0 0
dev 0
up 0 0
tsch 0 600
down 0 0
up 0 0
