# Four sets of subchannels, each named by its word; what is in no set, or has other bits, is no word of a subchannel.
storage 1000
sets 4
path 10
path FF
unit 0 block
unit 1 block
unit 2 block
sub 0 FFFF 0 FF 10
sub 00030000 0101 0 10
sub 50000 0102 1 10
sub 70000 0103 1 10
sub 70001 0104 2 10
stsch 00010000 700
show 704 18
stsch 70001 740
show 744 18
csch 0001FFFF
csch 0007FFFF
csch 00050001
csch 00090000
csch 80010000
csch 00020000
csch 00000000
choose 00000000
glance 70001
glance 70002
show FFFFFF 1
show 1000000 1
