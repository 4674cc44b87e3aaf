# A device that has nothing to do, and a unit that is not there.
storage 10
path 10
unit 0 block
sub 0 0100 0 10
dev 0
dev 1
