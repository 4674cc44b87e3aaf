# Lesson 1, question 3: the same without SLI, so that incorrect length is shown.
# Look at its last lines: what stands before them is the script of the lesson.
storage 10
path 10
unit 0 block
sub 0 0100 0 10
put 500 0000CAFE0080FF0000001000
put 1000 0100005000002000
put 2000 C1C2C3C4
enable 0 0 0
stsch 0 700
ssch 0 500
stsch 0 700
choose 0
down 0 0
up 0 0
down 0 0
dev 0
up 0 0
down 0 0
dev 0
up 0 0
down 0 0
dev 0
up 0 0
tsch 0 600
