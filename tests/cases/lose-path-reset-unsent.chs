# A path goes down before the Reset is sent: it goes by the path that is left.
storage 10
path 10
path 11
unit 0 block
sub 0 0100 0 10 11
put 500 000000000080FF0000001000
put 1000 0120000400002000
put 2000 C1C2C3C4
enable 0 0 0
csch 0
pathdown 10
choose 0
down 0 1
up 0 1
tsch 0 600
