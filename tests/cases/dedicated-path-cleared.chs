# CLEAR SUBCHANNEL ends a dedicated allegiance.
storage 10
path 10
path 11
unit 0 reject
sub 0 0100 0 10 11
put 500 000000000080FF0000001000
put 520 000000000080400000001000
put 1000 0120000400002000
put 2000 C1C2C3C4
enable 0 0 0
ssch 0 500
choose 0
down 0 0
up 0 0
down 0 0
dev 0
up 0 0
tsch 0 600
csch 0
choose 0
down 0 1
up 0 1
tsch 0 600
# A start that does not allow path 0.
ssch 0 520
choose 0
