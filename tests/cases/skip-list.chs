# Bytes that are skipped need no list: one off its boundary and one past storage are not looked at; without SKIP the first is a program check.
storage 10
path 10
unit 0 block
sub 0 0100 0 10
put 500 000000000080FF0000001000
put 520 000000000080FF0000001010
put 1000 02B40002000030010034000200010000
put 1010 0224000400003001
enable 0 0 0
ssch 0 500
choose 0
down 0 0
up 0 0
down 0 0
dev 0
dev 0
up 0 0
down 0 0
dev 0
up 0 0
down 0 0
dev 0
up 0 0
tsch 0 600
down 0 0
up 0 0
ssch 0 520
choose 0
down 0 0
up 0 0
down 0 0
dev 0
dev 0
up 0 0
tsch 0 600
down 0 0
up 0 0
