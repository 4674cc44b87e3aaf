# A path that went down is no longer asked to be reset.
storage 10
path 10
path 11
unit 0 block
sub 0 0100 0 10 11
put 500 000000000080FF0000001000
put 1000 0120000400002000
put 2000 C1C2C3C4
enable 0 0 0
rchp 10
pathdown 10
pathreset 10
rchp 10
pathup 10
rchp 10
pathreset 10
pathreset 10
stcrw 700
stcrw 700
stcrw 700
stcrw 700
