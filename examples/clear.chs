# A start is cleared before it is offered.
# Look at the Reset that goes to the device all the same: the clear is performed as the device answers it.
storage 10
path 10
unit 0 block
sub 0 0100 0 10
put 500 000000000080FF0000001000
put 1000 0120000400002000
put 2000 C1C2C3C4
enable 0 0 0
ssch 0 500
csch 0
# Clear function and clear pending; the start is gone.
stsch 0 700
choose 0
down 0 0
up 0 0
tsch 0 600
choose 0
