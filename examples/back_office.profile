pclprofile 1
# The duplex printer in the back office: letter paper in tray 1, A4 paper in tray 2.
name back-office
# Its users change the paper size and the orientation at the panel. Letter paper comes first.
size 2 26
orientation 0 1
vmi 8
font 1
copies 1
# The panel is locked to one side, though the device prints on both.
sides 0
tray 1
# What the device has.
trays 1 2
duplex 1
depth 2
memory 65536
# Letter paper, 8.5 by 11 inches.
geometry 2 0 61200 79200 1800 0 57600 79200 1200 1200 60000 78000
geometry 2 1 79200 61200 1440 0 76320 61200 1200 1200 78000 60000
# A4 paper, 210 by 297 mm.
geometry 26 0 59520 84168 1704 0 56112 84168 1200 1200 58320 82968
geometry 26 1 84168 59520 1416 0 81336 59520 1200 1200 82968 58320
# Courier in the PC-8 symbol set, at 10 characters an inch and 12 points, and at 12 an inch and 10 points.
face 1 10U 10 12 0 0 3 720 900 300 33-126
face 2 10U 12 10 0 0 3 600 750 250 33-126
