# Two subchannels are cleared while their paths are down, and ask for interruptions under subclasses 0 and 7.
storage 10
path 10
path 11
unit 0 block
unit 1 block
sub 0 0100 0 10
sub 1 0101 1 11
put 500 000000000080FF0000001000
put 1000 0120000400002000
put 2000 C1C2C3C4
enable 0 0 0
enable 1 7 0
pathdown 10
pathdown 11
csch 0
csch 1
choose 0
choose 1
tpi 81 800
tpi 80 800
tpi 01 800
tsch 0 600
