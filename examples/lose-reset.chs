# The path goes down on which a Reset was sent: another Reset goes by the other path.
# Look at refused 3 for the signal that vanished, and at the clear, which stays pending until a Reset is answered.
storage 10
path 10
path 11
unit 0 block
sub 0 0100 0 10 11
put 500 000000000080FF0000001000
put 1000 0120000400002000
put 2000 C1C2C3C4
enable 0 0 0
csch 0
choose 0
# The Reset was on its way by path 0.
pathdown 10
down 0 0
tsch 0 600
choose 0
down 0 1
up 0 1
tsch 0 600
