# Of the paths in the logical-path mask a program is offered on one that is available and not engaged, and waits where there is none.
storage 10
path 10
path 11
path 12
path 13
unit 0 block
unit 1 block
sub 0 0100 0 10 11 12 13
sub 1 0101 1 10
put 500 000000000080FF0000001000
put 520 000000000080800000001000
put 540 000000000080F00000001000
put 1000 0120000400002000
enable 0 0 0
enable 1 0 0
pathdown 11
# Subchannel 1 engages channel path 10, the only one that is left to subchannel 0.
ssch 1 500
choose 1
ssch 0 520
choose 0
stcps 800
xsch 0
# The masks: path 1 was found not operational, path 0 was not.
ssch 0 540
choose 0
stcps 800
stsch 0 700
show 708 8
