# In single-path mode a program comes back by the path of its offer alone; a Grant that is older than what its unit asks for is answered by Leave.
storage 10
path 10
path 11
unit 0 block
sub 0 0100 0 10 11
put 500 000000000080400000001000
put 1000 0120000400002000
put 2000 C1C2C3C4
enable 0 0 0
ssch 0 500
choose 0
down 0 1
up 0 1
down 0 1
leave 0
up 0 1
# By path 0, which is up, it is refused.
ask 0 0
up 0 0
stcps 800
down 0 0
# It asks for path 1 and, before the answer, for path 0.
ask 0 1
ask 0 0
up 0 1
stcps 800
up 0 0
down 0 1
down 0 0
up 0 1
stcps 800
# It asks for path 1 alone.
ask 0 1
up 0 1
stcps 800
down 0 1
dev 0
up 0 1
down 0 1
dev 0
up 0 1
down 0 1
dev 0
up 0 1
tsch 0 600
