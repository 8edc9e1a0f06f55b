pclprofile 2
# The laser printer of the dispatch office, as that at the front desk.
name dispatch
# Its panel is locked to letter paper in portrait, one copy and 6 lines an inch (a VMI of 8/48 inch).
size 2
orientation 0
vmi 8
font 1
copies 1
sides 0
tray 1
# Its users choose at the panel whether a line feed returns to the left margin, too.
lineterm 0 2
# What the device has.
trays 1
duplex 0
depth 2
memory 65536
# Letter paper, 8.5 by 11 inches, in portrait and landscape, in 7200ths of an inch: the page, the logical page (left, top,
# width, height) and the printable area (left, top, right, bottom), which ends a sixth of an inch from the edges.
geometry 2 0 61200 79200 1800 0 57600 79200 1200 1200 60000 78000
geometry 2 1 79200 61200 1440 0 76320 61200 1200 1200 78000 60000
# Courier in the PC-8 symbol set, at 10 characters an inch and 12 points.
face 1 10U 10 12 0 0 3 720 900 300 33-126
