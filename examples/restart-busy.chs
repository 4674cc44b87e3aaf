# A unit is restarted while a program is away, and the notice is lost with its path; told again by the other one, it ends the program.
# Look at refused 3 for the lost notice, and at the status that the second one makes.
storage 10
path 10
path 11
unit 0 block
sub 0 0100 0 10 11
put 500 000000000080FF0000001000
put 1000 0120000400002000
put 2000 C1C2C3C4
enable 0 0 1
ssch 0 500
choose 0
down 0 0
up 0 0
down 0 0
leave 0
up 0 0
# Nobody is told yet.
restart 0
notice 0 0
pathdown 10
up 0 0
notice 0 1
up 0 1
tsch 0 600
choose 0
down 0 1
up 0 1
# The side was reset since the restart: there is nothing to tell any more.
notice 0 1
