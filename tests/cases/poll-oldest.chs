# TEST PENDING INTERRUPTION takes the oldest request of the lowest subclass of its mask; a cleared status takes its own along.
storage 10
sets 2
path 10
unit 0 block
unit 1 block
unit 2 block
unit 3 block
unit 4 block
unit 5 block
unit 6 block
sub 0 0100 0 10
sub 1 0101 1 10
sub 2 0102 2 10
sub 3 0103 3 10
sub 4 0104 4 10
sub 30000 0200 5 10
sub 30001 0201 6 10
enable 0 3 0
enable 1 3 0
enable 2 3 0
enable 3 0 0
enable 4 7 0
enable 30000 7 0
enable 30001 3 0
tpi FF 600
# Requests of subchannels 4, 2, 0, 1 and 3, in this order.
hsch 4
choose 4
hsch 2
choose 2
hsch 0
choose 0
hsch 1
choose 1
hsch 3
choose 3
tpi 7F 600
tpi 6E 600
tpi FF 600
tpi FF 600
tpi 01 600
tpi 10 600
tpi FF 600
# Requests of subchannel 1 of either set, of which that of set 1 is the older; its status is cleared.
tsch 1 640
hsch 30001
choose 30001
hsch 1
choose 1
tsch 30001 640
tpi FF 600
tpi FF 600
