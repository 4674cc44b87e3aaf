# What instructions leave of the masks of paths: the eight bytes from 708 on are LPM, PNOM, LPUM, PIM, two zeros, POM and PAM.
storage 10
path 10
path 11
path 12
unit 0 block
sub 0 0100 0 10 11
put 500 000000070880FF0000001000
put 1000 0120000400002000
# Subclass 6, enabled, in multipath mode.
enable 0 6 1
show F04 C
# A path that the subchannel does not have changes none of its masks.
pathdown 12
pathdown 10
stsch 0 700
show 700 10
# A start that is halted looks for no path.
ssch 0 500
hsch 0
choose 0
tsch 0 600
stsch 0 700
show 708 8
# An offer finds path 0 not operational. CANCEL SUBCHANNEL leaves the masks, and clears N.
ssch 0 500
choose 0
stsch 0 700
xsch 0
stsch 0 700
show 708 8
down 0 1
up 0 1
down 0 1
up 0 1
# MODIFY SUBCHANNEL takes LPM and POM, beside the parameter, the subclass, E and D, and no other mask. LPUM is path 1, which accepted.
put 700 0000000538840000C000000000008100
msch 0 700
stsch 0 700
show 700 10
# A start takes its parameter and its LPM from the ORB, and clears PNOM; POM stays.
ssch 0 500
stsch 0 700
show 700 10
# RESUME SUBCHANNEL leaves the masks of a program that is active, and CANCEL SUBCHANNEL has code 2.
choose 0
down 0 1
up 0 1
rsch 0
xsch 0
stsch 0 700
show 708 8
# HALT SUBCHANNEL clears PNOM, and not N.
hsch 0
stsch 0 700
show 708 8
# A reset of the subsystem: the word is that of the opening, but for PAM. N stays, and goes with the next start.
sysreset
stsch 0 700
show 700 10
enable 0 6 1
ssch 0 500
stsch 0 700
choose 0
down 0 1
down 0 1
up 0 1
# CLEAR SUBCHANNEL clears PNOM and LPUM, and all paths are operational.
choose 0
down 0 1
up 0 1
stsch 0 700
show 700 10
csch 0
stsch 0 700
show 700 10
choose 0
down 0 1
down 0 1
up 0 1
tsch 0 600
# RESUME SUBCHANNEL clears PNOM of a program that is suspended. N goes as its status is tested.
put 1001 22
ssch 0 500
choose 0
down 0 1
up 0 1
tsch 0 600
stsch 0 700
show 708 8
rsch 0
stsch 0 700
show 708 8
