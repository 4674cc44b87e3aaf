# Operands that START SUBCHANNEL does not take, and a subchannel that is not there.
storage 10
path 10
unit 0 block
sub 0 0100 0 10
put 500 000000000080FF0000001000
put 1000 0120000400002000
put 2000 C1C2C3C4
enable 0 0 0
ssch 0 502
ssch 00020001 500
put 520 000000000084FF0000001000
ssch 0 520
ssch 5 500
ssch 0 500
