# A reset of the channel subsystem leaves the deferred condition code and N in the status word; the next start does not.
storage 10
path 10
unit 0 block
sub 0 0100 0 10
put 500 000000000080FF0000001000
put 1000 0120000400002000
enable 0 0 0
pathdown 10
ssch 0 500
choose 0
stsch 0 700
sysreset
stsch 0 700
enable 0 0 0
ssch 0 500
stsch 0 700
