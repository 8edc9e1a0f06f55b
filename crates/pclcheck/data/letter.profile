pclprofile 1
# A printer with letter paper alone, printed on one side.
name letter
size 2
orientation 0
vmi 8
font 1
copies 1
sides 0
tray 1
trays 1
duplex 0
depth 2
memory 100
geometry 2 0 61200 79200 1800 0 57600 79200 1200 1200 60000 78000
face 1 10U 10 12 0 0 3 720 900 300 33-126
