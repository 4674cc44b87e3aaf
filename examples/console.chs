# A line is written to a console, and read back by the next command.
# Look at the count left: the read asked for eight bytes and the line has four; SLI leaves incorrect length out.
storage 10
path 10
unit 0 console
sub 0 0100 0 10
put 500 000000000080FF0000001000
put 1000 0160000400002000
# Code 0A reads the line.
put 1008 0A20000800003000
put 2000 C1C2C3C4
enable 0 0 0
ssch 0 500
choose 0
down 0 0
up 0 0
down 0 0
dev 0
up 0 0
down 0 0
dev 0
up 0 0
down 0 0
dev 0
up 0 0
down 0 0
dev 0
dev 0
up 0 0
down 0 0
dev 0
up 0 0
tsch 0 600
show 3000 8
