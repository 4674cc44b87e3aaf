# Clears draw Reset after Reset until the wire is full in both directions; a full wire refuses an event before it changes anything.
# Look at the two refused 2, and at the nine answers: only that of the latest Reset is taken, the others come too late.
storage 10
path 10
unit 0 block
sub 0 0100 0 10
put 500 000000000080FF0000001000
put 1000 0120000400002000
put 2000 C1C2C3C4
enable 0 0 0
csch 0
choose 0
csch 0
choose 0
csch 0
choose 0
csch 0
choose 0
csch 0
choose 0
csch 0
choose 0
csch 0
choose 0
csch 0
choose 0
csch 0
# The ninth Reset finds no place on the wire down.
choose 0
down 0 0
choose 0
down 0 0
down 0 0
down 0 0
down 0 0
down 0 0
down 0 0
down 0 0
# Eight answers stand on the wire up: the unit takes no further Reset.
down 0 0
up 0 0
down 0 0
up 0 0
up 0 0
up 0 0
up 0 0
up 0 0
up 0 0
up 0 0
up 0 0
tsch 0 600
