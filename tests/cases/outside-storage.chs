# Acts outside storage or off a boundary are refused.
storage 10
path 10
unit 0 block
sub 0 0100 0 10
key 10000 10
show FFFF 2
prefix 0 11000
prefix 0 10000
stsch 0 702
msch 0 10000
