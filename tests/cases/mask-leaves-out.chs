# A path that is down is not marked where the logical-path mask leaves it out.
storage 10
path 10
path 11
path 12
path 13
path 14
path 15
path 16
path 17
unit 0 block
sub 0 0100 0 10 11 12 13 14 15 16 17
put 500 000000000080FF0000001000
put 1000 0120000400002000
put 2000 C1C2C3C4
enable 0 0 0
put 500 000000000080240000001000
pathdown 13
ssch 0 500
choose 0
stsch 0 700
show 708 8
