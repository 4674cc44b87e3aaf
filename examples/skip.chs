# A read whose middle is skipped: two bytes to 3000, two nowhere, two to 3002, by data chaining.
# Look at the bytes that are shown: C1C2C5C6 together, and the mark behind them untouched.
storage 10
path 10
unit 0 block
sub 0 0100 0 10
put 500 000000000080FF0000001000
put 520 000000000080FF0000001008
put 1000 0120000600002000
# CD is 80, SKIP is 10: the bytes of the second word are moved to no place, its address is not used.
put 1008 028000020000300000900002000000000020000200003002
put 2000 C1C2C3C4C5C6
put 3000 EEEEEEEEEEEE
enable 0 0 0
ssch 0 500
choose 0
down 0 0
up 0 0
down 0 0
dev 0
up 0 0
down 0 0
dev 0
up 0 0
down 0 0
dev 0
up 0 0
tsch 0 600
down 0 0
up 0 0
ssch 0 520
choose 0
down 0 0
up 0 0
down 0 0
dev 0
# The device supplies up to the count of each word.
dev 0
up 0 0
down 0 0
dev 0
up 0 0
down 0 0
dev 0
up 0 0
down 0 0
dev 0
up 0 0
tsch 0 600
show 3000 6
