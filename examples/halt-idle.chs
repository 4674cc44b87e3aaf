# HALT SUBCHANNEL where no program is: the halt is performed at once, without a signal.
# Look at choose, which prints status, and at the halt function in the status, 2001, with no bit of the device.
storage 10
path 10
unit 0 block
sub 0 0100 0 10
put 500 000000000080FF0000001000
put 1000 0120000400002000
put 2000 C1C2C3C4
enable 0 0 0
# No program, no device at work.
hsch 0
choose 0
tsch 0 600
