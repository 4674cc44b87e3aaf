# A disk behind two channel paths and a console behind a third: a write and a read of the disk, of eight bytes each.
# What the exercise of docs/TEACHING.md begins with: both subchannels are enabled, nothing is started yet.
storage 10
path 10
path 11
path 12
unit 0 block
unit 1 console
sub 0 0190 0 10 11
sub 1 0009 1 12
# The ORB of the write, which asks for an interruption as it begins (PCI), and the ORB of the read.
put 500 0000D15C0080FF0000001000
put 520 0000D15C0080FF0000001010
put 1000 0128000800002000
put 1010 0220000800003000
put 2000 C1C2C3C4C5C6C7C8
enable 0 3 0
enable 1 1 0
