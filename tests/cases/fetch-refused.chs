# A key refuses the fetch of the first block; STORE and MODIFY SUBCHANNEL of a subchannel that is not there.
storage 10
path 10
unit 0 block
sub 0 0100 0 10
key 2FFF 18
put 500 000000002080FF0000002000
enable 0 0 0
ssch 0 500
choose 0
down 0 0
up 0 0
tsch 0 600
stsch 5 700
msch 5 700
