# A unit that is restarted tells so again and again, and its subchannel takes nothing: the wire is full after eight signals.
# Look at refused 2 for the ninth: it changes nothing; the tenth is sent, as a signal was taken by then.
storage 10
path 10
unit 0 block
sub 0 0100 0 10
put 500 000000000080FF0000001000
put 1000 0120000400002000
put 2000 C1C2C3C4
enable 0 0 0
# Each notice is a signal on the wire up of path 0.
restart 0
notice 0 0
notice 0 0
notice 0 0
notice 0 0
notice 0 0
notice 0 0
notice 0 0
notice 0 0
notice 0 0
# One signal less on the wire.
up 0 0
notice 0 0
