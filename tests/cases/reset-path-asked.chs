# A channel path is asked to be reset once; no report waits.
storage 10
path 10
path 11
unit 0 block
unit 1 block
sub 0 0100 0 10
sub 1 0101 1 11
put 500 000000000080FF0000001000
put 1000 0120000400002000
enable 0 3 0
enable 1 1 0
rchp 10
cpu 1 rchp 10
rchp 12
rchp 110
put 700 FFFFFFFF
stcrw 700
stcrw 702
show 700 4
