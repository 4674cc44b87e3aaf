# A device asks for attention while its subchannel rests.
# Look at the alert status: attention, 80, in the last word; the device hears by got that it was taken.
storage 10
path 10
unit 0 block
sub 0 0100 0 10
put 500 000000000080FF0000001000
put 1000 0120000400002000
put 2000 C1C2C3C4
enable 0 0 0
# The unit asks on path 0, and the subchannel takes its signal.
attn 0 0
up 0 0
tsch 0 600
down 0 0
