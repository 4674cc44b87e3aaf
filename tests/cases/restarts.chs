# A restarted unit tells a side how often it was restarted, whatever comes to it, until it takes a Reset with that count; the other side is told and reset by itself.
storage 10
path 10
path 11
path 12
unit 0 block
sub 0 0100 0 10 11
sub 1 0101 0 12
put 500 000000000080FF0000001000
put 1000 0120000400002000
enable 0 0 0
enable 1 0 0
attn 0 0
up 0 0
tsch 0 600
restart 0
attn 0 0
# The answer to the attention finds it forgotten, and is answered by a notice of one restart.
down 0 0
up 0 0
choose 0
# Restarted twice more, the unit does not take the Reset with a count of one: it tells of three.
restart 0
restart 0
down 0 0
notice 0 1
up 0 0
choose 0
# Three are known already.
up 0 1
down 0 1
notice 0 1
up 0 1
# The second side was told nothing: its offer is answered by a notice, which ends its program.
attn 0 0 1
ssch 1 500
choose 1
down 1 0
up 1 0
tsch 1 640
choose 1
down 1 0
notice 0 0 1
up 1 0
# Each side goes on.
attn 0 0 1
up 1 0
ssch 0 500
choose 0
down 0 0
up 0 0
