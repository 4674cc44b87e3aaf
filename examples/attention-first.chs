# Attention is met by a start that waits: the start is over, and its status has deferred condition code 1.
# Look at 0180 in the first word: code 1 in bits 6 and 7, beside F; no program was offered.
storage 10
path 10
unit 0 block
sub 0 0100 0 10
put 500 000000000080FF0000001000
put 1000 0120000400002000
put 2000 C1C2C3C4
enable 0 0 0
attn 0 0
# The start waits, and is not offered as the attention comes.
ssch 0 500
up 0 0
tsch 0 600
