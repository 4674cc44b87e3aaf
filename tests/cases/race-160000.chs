# Sixteen CPUs execute TEST SUBCHANNEL side by side, ten thousand times each: 160,000 entries in one history.
storage 10
path 10
unit 0 block
sub 0 0100 0 10
enable 0 0 0
race 16 10000 tsch 0
