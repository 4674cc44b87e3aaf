# One of two channel paths is reset by RESET CHANNEL PATH, while a program works on each.
# Look at what is engaged, before and after, and at subchannel 1, which ends its write as if nothing had been.
storage 10
path 10
path 11
unit 0 block
unit 1 block
sub 0 0100 0 10
sub 1 0101 1 11
put 500 000000000080FF0000001000
put 1000 0120000400002000
put 2000 C1C2C3C4
enable 0 0 0
enable 1 0 0
ssch 0 500
choose 0
down 0 0
up 0 0
down 0 0
ssch 1 500
choose 1
down 1 0
up 1 0
down 1 0
stcps 800
# The reset is asked for once, is done, and is reported.
rchp 10
rchp 10
pathreset 10
stcps 800
stcrw 700
rchp 10
tsch 0 600
dev 1
up 1 0
down 1 0
dev 1
up 1 0
down 1 0
dev 1
up 1 0
tsch 1 600
