# Intermediate status of a program that is active counts as cleared as the program is halted; its request stays until a test.
storage 10
path 10
unit 0 block
sub 0 0100 0 10
put 500 000000000080FF0000001000
# A block with PCI.
put 1000 0128000400002000
put 2000 C1C2C3C4
enable 0 0 0
ssch 0 500
choose 0
down 0 0
up 0 0
stsch 0 700
glance 0
xsch 0
hsch 0
stsch 0 700
glance 0
tsch 0 600
tpi FF 800
hsch 0
choose 0
down 0 0
down 0 0
dev 0
up 0 0
glance 0
tsch 0 600
down 0 0
up 0 0
# The same without a test of status. A reset of the subsystem leaves the address, the status and the count.
ssch 0 500
choose 0
down 0 0
up 0 0
hsch 0
tpi FF 800
sysreset
stsch 0 700
glance 0
