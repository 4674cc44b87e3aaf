# TPI, STCPS and STCRW test their operand first: what is refused takes nothing out, and what they store is no longer than it should be.
storage 10
path 10
path 11
unit 0 block
unit 1 block
sub 0 0100 0 10
sub 1 0101 1 11
put 500 000001010080FF0000001000
put 1000 0120000400002000
put 600 FFFFFFFFFFFFFFFFFFFFFFFF
put 71F FFFFFFFFFFFFFFFFFFFFFFFFFFFFFFFFFFFFFFFFFFFFFFFFFFFFFFFFFFFFFFFFFFFF
enable 0 0 0
enable 1 7 0
# No request: nothing is stored, and the operand is tested all the same.
tpi FF 600
tpi FF FFFC
# A request of subclass 7, which the mask FE leaves out.
ssch 1 500
hsch 1
choose 1
tpi FE 600
show 600 C
tpi 01 602
tpi 01 10000
tpi 01 FFFC
tpi 01 600
show 600 C
tpi 01 0
# Two paths are engaged.
tsch 1 600
ssch 0 500
ssch 1 500
choose 0
choose 1
stcps 730
stcps 10000
stcps 720
show 71F 22
# A report.
pathdown 10
stcrw 701
stcrw 10000
stcrw FFFC
show FFFC 4
stcrw FFFC
show FFFC 4
