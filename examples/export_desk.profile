pclprofile 1
# The printer of the export desk: A4 paper alone, printed on one side.
name export-desk
size 26
orientation 0
vmi 8
font 1
copies 1
sides 0
tray 1
# What the device has.
trays 1
duplex 0
depth 2
memory 65536
# A4 paper, 210 by 297 mm. This printer has no letter paper.
geometry 26 0 59520 84168 1704 0 56112 84168 1200 1200 58320 82968
geometry 26 1 84168 59520 1416 0 81336 59520 1200 1200 82968 58320
# Courier in the PC-8 symbol set, at 10 characters an inch and 12 points.
face 1 10U 10 12 0 0 3 720 900 300 33-126
