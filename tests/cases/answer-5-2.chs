# Lesson 5, question 2: in single-path mode the loss of its path is that of a program that is away.
# Look at its last lines: what stands before them is the script of the lesson.
storage 10
path 10
path 11
unit 0 block
sub 0 0100 0 10 11
put 500 0000CAFE0080FF0000001000
put 1000 0160000400002000
put 1008 0220000400003000
put 2000 C1C2C3C4
enable 0 0 0
ssch 0 500
choose 0
down 0 0
up 0 0
down 0 0
leave 0
up 0 0
pathdown 10
stsch 0 700
