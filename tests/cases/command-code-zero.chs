# Code 00 is no command.
storage 10
path 10
unit 0 block
sub 0 0100 0 10
put 500 000000000080FF0000001000
put 1000 0000000100002000
enable 0 0 0
ssch 0 500
choose 0
down 0 0
up 0 0
tsch 0 600
down 0 0
up 0 0
