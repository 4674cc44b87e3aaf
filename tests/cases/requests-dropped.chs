# A status that is cleared takes its request along, and so does CLEAR SUBCHANNEL; a status stays where its request was taken out.
storage 10
path 10
path 11
unit 0 block
unit 1 block
sub 0 0100 0 10
sub 1 0101 1 11
put 500 000000000080FF0000001000
put 1000 0120000400002000
enable 0 3 0
enable 1 1 0
hsch 0
choose 0
tsch 0 600
tpi FF 600
hsch 0
choose 0
cpu 2 tpi 10 600
tsch 0 600
hsch 1
choose 1
csch 1
tpi FF 600
