# A channel path is engaged from the offer of a program on: STORE CHANNEL PATH STATUS shows it.
# Look at what is stored, one bit for each channel path: 11 is bit 17.
storage 10
path 10
path 11
unit 0 block
unit 1 block
sub 0 0100 0 10
sub 1 0101 1 11
put 500 000000000080FF0000001000
put 1000 0120000400002000
enable 0 3 0
enable 1 1 0
# No path is engaged.
stcps 740
ssch 1 500
choose 1
cpu 3 stcps 740
show 740 4
# The 32 bytes must lie on a boundary of 32.
stcps 750
