# Code 3 at a subchannel that is not enabled, or not there: the operand is tested first, and nothing is stored.
storage 10
path 10
unit 0 block
sub 0 0100 0 10
put 500 000000000080FF0000001000
put 520 FFFFFFFFFFFFFFFFFFFFFFFF
# Not enabled: STORE and MODIFY SUBCHANNEL need no enabled one.
ssch 0 500
tsch 0 520
rsch 0
hsch 0
csch 0
xsch 0
stsch 0 700
show 704 4
msch 0 700
ssch 0 520
# Not there.
ssch 1 500
msch 1 600
tsch 1 520
stsch 1 520
rsch 1
hsch 1
csch 1
xsch 1
ssch 1 520
ssch 1 502
ssch 1 10000
msch 1 520
msch 1 522
tsch 1 10000
show 520 C
