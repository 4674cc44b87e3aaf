# All paths go down before the Reset is sent: the clear is performed at once, a start finds no path, and the Reset stays due.
storage 10
path 10
path 11
unit 0 block
sub 0 0100 0 10 11
put 500 000000000080FF0000001000
put 1000 0120000400002000
put 2000 C1C2C3C4
enable 0 0 0
csch 0
pathdown 10
pathdown 11
choose 0
choose 0
tsch 0 600
ssch 0 500
choose 0
tsch 0 600
pathup 11
choose 0
down 0 1
up 0 1
tsch 0 600
choose 0
