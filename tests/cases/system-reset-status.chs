# A reset of the channel subsystem: status counts as cleared, and its request is gone.
storage 10
path 10
path 11
unit 0 block
sub 0 0100 0 10 11
put 500 000000000080FF0000001000
put 1000 0120000400002000
put 2000 C1C2C3C4
enable 0 0 0
hsch 0
choose 0
glance 0
sysreset
glance 0
tpi FF 600
tsch 0 600
enable 0 0 0
choose 0
down 0 0
up 0 0
tsch 0 600
