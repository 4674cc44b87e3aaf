# Codes while a halt or a clear is in progress, and once its status is pending; then at attention, and of a start that is halted.
storage 10
path 10
unit 0 block
sub 0 0100 0 10
put 500 000000000080FF0000001000
put 520 FFFFFFFFFFFFFFFFFFFFFFFF
enable 0 0 0
stsch 0 700
# Halt function and halt pending. The ORB is tested before the code is set.
hsch 0
stsch 0 740
ssch 0 500
ssch 0 520
msch 0 700
rsch 0
hsch 0
xsch 0
choose 0
stsch 0 740
ssch 0 500
msch 0 700
hsch 0
# CLEAR SUBCHANNEL has neither code 1 nor code 2. The status of the halt counts as cleared.
csch 0
glance 0
stsch 0 740
ssch 0 500
msch 0 700
rsch 0
hsch 0
xsch 0
csch 0
choose 0
down 0 0
up 0 0
hsch 0
tsch 0 600
# Attention: status is pending without any function.
attn 0 0
up 0 0
ssch 0 500
msch 0 700
xsch 0
tsch 0 600
down 0 0
# A start that waits is halted: status is pending alone.
ssch 0 500
hsch 0
stsch 0 740
xsch 0
choose 0
tsch 0 600
tsch 0 600
choose 0
