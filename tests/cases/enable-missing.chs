# A subchannel that is not there is enabled: the SCHIB at F00 is looked at first, then the code is 3.
storage 10
path 10
unit 0 block
sub 0 0100 0 10
put F04 47180102
enable 5 3 1
show F04 4
put F05 03
enable 5 3 1
show F04 4
