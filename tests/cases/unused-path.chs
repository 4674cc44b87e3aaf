# A channel path that no subchannel has goes down, comes up and is reset: each is reported.
storage 10
path 10
path 11
unit 0 block
sub 0 0100 0 10
pathdown 11
pathup 11
rchp 11
pathreset 11
stcrw 700
stcrw 700
stcrw 700
