pclprofile 1
# HP LaserJet 4200, by 'pclcheck profile new hp-laserjet-4200'.
# DRAFT: no number of it was measured at a printer.
#
# What it is from:
#   geometry: the table of pages of HP's PCL 5 manual, written from memory. One rule gives it: a
#   page is its paper in whole dots of 1/300 inch, A4 as 2480 x 3507. The logical page is as high
#   as the paper and lies 75 dots inside both side edges, 71 on metric paper, in landscape 60 and
#   59. The printable area lies 50 dots inside each edge.
#   face: what is usual from the LaserJet 4 on. A letter's box is 7200/pitch wide, 3/4 of the
#   letter's size high and 1/4 deep: give it alike in all profiles, or their letters differ (33).
#   which papers it can have: its PostScript PPD (HPLIP 3.22.10).
#
# What to check at the printer, and how:
#   Print the configuration page, the menu map and the PCL font list at its panel, or ask it
#   '@PJL INFO VARIABLES'. The language has to be PCL or automatic; CR is not added to LF; edge to
#   edge and A4 for letter are off.
#   geometry: print text of 80 columns, 10 to the inch, on A4 in portrait. 77 fit; where more do,
#   the panel has 'wide A4' on, and the A4 rows are wrong. Lay a ruler on rules that begin at the
#   edges: the outer 1/6 inch stays white.
#   face: compare symbol sets, pitches and heights with the font list; take out what it lacks.
#   vmi: measure ten lines of a page that sets nothing: 8 is 10/6 inch, 6 is 10/8 inch (on letter
#   paper 60 and 80 form lines).
#   duplex: whether this very printer has it. depth: the manual allows two levels. memory: a
#   guess.
#   tray: it stands for what the printer takes by itself; give it alike in all profiles of a
#   fleet. Where the panel takes the MP tray first, set it to the cassette, or list both.
#   trays: 1 tray 2, 2 manual feed, 3 manual feed of envelopes, 4 tray 1, 5 tray 3 (option), 6 the
#   envelope feeder (option), 20 tray 4 (option).
#
# Each list from size to tray has one value: it promises that the panel stands so, and that nobody
#   changes it. Where people do, 'pclcheck profile new --panel free' lists what they may choose.
name hp-laserjet-4200
size 2
orientation 0
vmi 8
font 1
copies 1
sides 0
tray 1
trays 1 2 3 4 5 6 20
duplex 1
memory 1048576
# letter
geometry 2 0 61200 79200 1800 0 57600 79200 1200 1200 60000 78000
geometry 2 1 79200 61200 1440 0 76320 61200 1200 1200 78000 60000
geometry 2 2 61200 79200 1800 0 57600 79200 1200 1200 60000 78000
geometry 2 3 79200 61200 1440 0 76320 61200 1200 1200 78000 60000
# a4
geometry 26 0 59520 84168 1704 0 56112 84168 1200 1200 58320 82968
geometry 26 1 84168 59520 1416 0 81336 59520 1200 1200 82968 58320
geometry 26 2 59520 84168 1704 0 56112 84168 1200 1200 58320 82968
geometry 26 3 84168 59520 1416 0 81336 59520 1200 1200 82968 58320
# Courier (3, 4099), Line Printer (0) and Letter Gothic (4102, 6)
face 1 10U 10 12 0 0 3 720 900 300 33-126,128-254
face 2 8U 10 12 0 0 3 720 900 300 33-126,161-254
face 3 0N 10 12 0 0 3 720 900 300 33-126,161-255
face 4 19U 10 12 0 0 3 720 900 300 33-126,130-140,145-156,159-159,161-255
face 5 12U 10 12 0 0 3 720 900 300 33-126,128-254
face 6 0U 10 12 0 0 3 720 900 300 33-126
face 7 8U 10 12 0 0 4099 720 900 300 33-126,161-254
face 8 10U 10 12 0 0 4099 720 900 300 33-126,128-254
face 9 0N 10 12 0 0 4099 720 900 300 33-126,161-255
face 10 19U 10 12 0 0 4099 720 900 300 33-126,130-140,145-156,159-159,161-255
face 11 12U 10 12 0 0 4099 720 900 300 33-126,128-254
face 12 0U 10 12 0 0 4099 720 900 300 33-126
face 13 8U 10 12 0 3 4099 720 900 300 33-126,161-254
face 14 10U 10 12 0 3 4099 720 900 300 33-126,128-254
face 15 0N 10 12 0 3 4099 720 900 300 33-126,161-255
face 16 19U 10 12 0 3 4099 720 900 300 33-126,130-140,145-156,159-159,161-255
face 17 12U 10 12 0 3 4099 720 900 300 33-126,128-254
face 18 8U 10 12 0 3 3 720 900 300 33-126,161-254
face 19 10U 10 12 0 3 3 720 900 300 33-126,128-254
face 20 0N 10 12 0 3 3 720 900 300 33-126,161-255
face 21 19U 10 12 0 3 3 720 900 300 33-126,130-140,145-156,159-159,161-255
face 22 12U 10 12 0 3 3 720 900 300 33-126,128-254
face 23 8U 12 10 0 0 4099 600 750 250 33-126,161-254
face 24 10U 12 10 0 0 4099 600 750 250 33-126,128-254
face 25 0N 12 10 0 0 4099 600 750 250 33-126,161-255
face 26 19U 12 10 0 0 4099 600 750 250 33-126,130-140,145-156,159-159,161-255
face 27 12U 12 10 0 0 4099 600 750 250 33-126,128-254
face 28 8U 12 10 0 0 3 600 750 250 33-126,161-254
face 29 10U 12 10 0 0 3 600 750 250 33-126,128-254
face 30 0N 12 10 0 0 3 600 750 250 33-126,161-255
face 31 19U 12 10 0 0 3 600 750 250 33-126,130-140,145-156,159-159,161-255
face 32 12U 12 10 0 0 3 600 750 250 33-126,128-254
face 33 8U 10 12 1 0 4099 720 900 300 33-126,161-254
face 34 10U 10 12 1 0 4099 720 900 300 33-126,128-254
face 35 19U 10 12 1 0 4099 720 900 300 33-126,130-140,145-156,159-159,161-255
face 36 8U 10 12 1 0 3 720 900 300 33-126,161-254
face 37 10U 10 12 1 0 3 720 900 300 33-126,128-254
face 38 19U 10 12 1 0 3 720 900 300 33-126,130-140,145-156,159-159,161-255
face 39 8U 12 10 0 3 4099 600 750 250 33-126,161-254
face 40 10U 12 10 0 3 4099 600 750 250 33-126,128-254
face 41 19U 12 10 0 3 4099 600 750 250 33-126,130-140,145-156,159-159,161-255
face 42 8U 12 10 0 3 3 600 750 250 33-126,161-254
face 43 10U 12 10 0 3 3 600 750 250 33-126,128-254
face 44 19U 12 10 0 3 3 600 750 250 33-126,130-140,145-156,159-159,161-255
face 45 8U 16.67 8.5 0 0 0 432 638 213 33-126,161-254
face 46 10U 16.67 8.5 0 0 0 432 638 213 33-126,128-254
face 47 0N 16.67 8.5 0 0 0 432 638 213 33-126,161-255
face 48 12U 16.67 8.5 0 0 0 432 638 213 33-126,128-254
face 49 8U 16.66 8.5 0 0 0 432 638 213 33-126,161-254
face 50 10U 16.66 8.5 0 0 0 432 638 213 33-126,128-254
face 51 8U 12 12 0 0 4102 600 900 300 33-126,161-254
face 52 10U 12 12 0 0 4102 600 900 300 33-126,128-254
face 53 0N 12 12 0 0 4102 600 900 300 33-126,161-255
face 54 19U 12 12 0 0 4102 600 900 300 33-126,130-140,145-156,159-159,161-255
face 55 12U 12 12 0 0 4102 600 900 300 33-126,128-254
face 56 8U 12 12 0 3 4102 600 900 300 33-126,161-254
face 57 10U 12 12 0 3 4102 600 900 300 33-126,128-254
face 58 8U 12 12 0 0 6 600 900 300 33-126,161-254
face 59 10U 12 12 0 0 6 600 900 300 33-126,128-254
depth 2
