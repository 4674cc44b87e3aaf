# Lesson 3, question 1: of two requests that are allowed the one of the lower subclass is found, though it is younger.
# Look at its last lines: what stands before them is the script of the lesson.
storage 10
path 10
path 11
unit 0 block
unit 1 console
sub 0 0100 0 10
sub 1 0009 1 11
put 500 0000CAFE0080FF0000001000
put 1000 0120000400002000
put 2000 C1C2C3C4
enable 0 5 0
enable 1 1 0
tpi FF 800
ssch 0 500
choose 0
down 0 0
up 0 0
down 0 0
tpi FF 800
tsch 0 600
dev 0
up 0 0
down 0 0
dev 0
up 0 0
down 0 0
dev 0
up 0 0
attn 1 0
up 1 0
tpi FF 800
