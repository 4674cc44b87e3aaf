# A block is sought that is not there, by a command with CC and a count that is too great: the unit check ends the chain.
storage 10
path 10
unit 0 block
sub 0 0100 0 10
put 500 000000000080FF0000001000
put 1000 0760000600002010
put 1008 0120000400002000
put 2010 002000000000
enable 0 0 0
ssch 0 500
choose 0
down 0 0
up 0 0
down 0 0
dev 0
up 0 0
down 0 0
dev 0
up 0 0
down 0 0
dev 0
up 0 0
# Alert, primary and secondary status; unit check beside channel end and device end, and four bytes that are left.
tsch 0 600
show 600 10
# With code 1 the block is stored too.
tsch 0 600
show 600 10
down 0 0
up 0 0
