# START and TEST SUBCHANNEL answer by what the subchannel is at: a start that waits, no status, and a subchannel that there is not.
# Look at cc 2 of the second ssch, cc 1 of tsch while no status is pending, and cc 3 for subchannel 1.
storage 10
path 10
unit 0 block
sub 0 0100 0 10
put 500 000000000080FF0000001000
put 1000 0120000400002000
put 2000 C1C2C3C4
enable 0 0 0
ssch 0 500
# Start function and start pending: another start is refused by code 2.
ssch 0 500
stsch 0 700
# No status is pending yet.
tsch 0 600
# There is no subchannel 1.
ssch 1 500
tsch 1 600
