# Recorded from QEMU's boot firmware for s390x at a block unit: its SENSE ID is rejected, so it senses, four times in all, and gives up.
# Look at the pairs of TEST SUBCHANNEL: unit check, then incorrect length of a SENSE of 32 bytes, of which one, 80, came.
storage 1000
path 10
unit 0 block
sub 0 0100 0 10
stsch 10000 FFF040
show FFF040 34
stsch 10000 FFF040
show FFF040 34
put FFF045 81
msch 10000 FFF040
put FFF045 C2FF
put FFF048 002B9CC8
ssch 10000 FFF040
choose 10000
down 10000 0
choose 10000
put 2B9CC8 E42001
put 2B9CCD 2B9CD0
up 10000 0
down 10000 0
dev 0
up 10000 0
down 10000 0
up 10000 0
tpi FF FFF040
show FFF040 8
tsch 10000 FFF040
show FFF040 40
put FFF041 000000
put FFF045 C2FF00002B9990
ssch 10000 FFF040
choose 10000
down 10000 0
choose 10000
put 2B9990 04
put 2B9993 20
put 2B9995 2B99A8
up 10000 0
down 10000 0
dev 0
dev 0
up 10000 0
show 2B99A8 1
down 10000 0
dev 0
up 10000 0
down 10000 0
up 10000 0
tpi FF FFF040
show FFF040 8
tsch 10000 FFF040
show FFF040 40
put FFF041 000000
put FFF045 C2FF00002B9CC8
ssch 10000 FFF040
choose 10000
down 10000 0
choose 10000
up 10000 0
down 10000 0
dev 0
up 10000 0
down 10000 0
up 10000 0
tpi FF FFF040
show FFF040 8
tsch 10000 FFF040
show FFF040 40
put FFF041 000000
put FFF045 C2FF00002B9990
ssch 10000 FFF040
choose 10000
down 10000 0
choose 10000
up 10000 0
down 10000 0
dev 0
dev 0
up 10000 0
show 2B99A8 1
down 10000 0
dev 0
up 10000 0
down 10000 0
up 10000 0
tpi FF FFF040
show FFF040 8
tsch 10000 FFF040
show FFF040 40
put FFF041 000000
put FFF045 C2FF00002B9CC8
ssch 10000 FFF040
choose 10000
down 10000 0
choose 10000
up 10000 0
down 10000 0
dev 0
up 10000 0
down 10000 0
up 10000 0
tpi FF FFF040
show FFF040 8
tsch 10000 FFF040
show FFF040 40
put FFF041 000000
put FFF045 C2FF00002B9990
ssch 10000 FFF040
choose 10000
down 10000 0
choose 10000
up 10000 0
down 10000 0
dev 0
dev 0
up 10000 0
show 2B99A8 1
down 10000 0
dev 0
up 10000 0
down 10000 0
up 10000 0
tpi FF FFF040
show FFF040 8
tsch 10000 FFF040
show FFF040 40
put FFF041 000000
put FFF045 C2FF00002B9CC8
ssch 10000 FFF040
choose 10000
down 10000 0
choose 10000
up 10000 0
down 10000 0
dev 0
up 10000 0
down 10000 0
up 10000 0
tpi FF FFF040
show FFF040 8
tsch 10000 FFF040
show FFF040 40
put FFF041 000000
put FFF045 C2FF00002B9990
ssch 10000 FFF040
choose 10000
down 10000 0
choose 10000
up 10000 0
down 10000 0
dev 0
dev 0
up 10000 0
show 2B99A8 1
down 10000 0
dev 0
up 10000 0
down 10000 0
up 10000 0
tpi FF FFF040
show FFF040 8
tsch 10000 FFF040
show FFF040 40
