# Real addresses about a prefix of 4000: the first and the last word of either 8K; operands in two places; past the end of storage.
storage 10
path 10
unit 0 block
sub 0 0100 0 10
enable 0 0 0
prefix 1 1000
prefix 1 10000
prefix 1 4000
put 0 FFFFFFFF
put 1FFC FFFFFFFFFFFFFFFF
put 4000 FFFFFFFF
put 5FFC FFFFFFFFFFFFFFFF
cpu 1 stcrw 0
show 0 4
show 4000 4
cpu 1 stcrw 1FFC
show 1FFC 8
show 5FFC 8
cpu 1 stcrw 2000
show 1FFC 8
cpu 1 stcrw 4000
show 0 4
cpu 1 stcrw 5FFC
show 1FFC 8
show 5FFC 8
cpu 1 stcrw 6000
show 5FFC 8
# Eight bytes of a SCHIB in the one place and 44 in the other; and so an ORB is fetched.
cpu 1 stsch 0 1FF8
show 1FF8 8
show 5FF8 8
show 2000 C
put 5FF8 12345678
put 5FFC 0080FF00
put 2000 00001000
cpu 1 ssch 0 1FF8
stsch 0 700
show 700 4
cpu 1 ssch 0 FFF8
cpu 1 stsch 0 FFFFFFFC
