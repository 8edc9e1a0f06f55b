"""The four built-in sample profiles, as texts."""

SAMPLE_A = """\
pclprofile 1
name A
size 2 26
orientation 0 1
vmi 8
font 1
copies 1
sides 0
tray 1
trays 1 2
duplex 1
depth 2
memory 100
geometry 2 0 61200 79200 1800 0 57600 79200 1200 1200 60000 78000
geometry 2 1 79200 61200 1440 0 76320 61200 1200 1200 78000 60000
geometry 26 0 59520 84168 1704 0 56112 84168 1200 1200 58320 82968
geometry 26 1 84168 59520 1416 0 81336 59520 1200 1200 82968 58320
face 1 10U 10 12 0 0 3 720 900 300 33-126
face 2 10U 12 10 0 0 3 600 750 250 33-126
"""


def with_lines(text: str, *lines: str) -> str:
    """The text with each line in place of the one of its key (face: of its id)."""
    for line in lines:
        key = line.split()[:2] if line.startswith("face") else line.split()[:1]
        olds = [old for old in text.split("\n") if old.split()[:len(key)] == key]
        text = text.replace(olds[0] + "\n", line + "\n")
    return text


SAMPLE_B = with_lines(SAMPLE_A, "name B", "size 2", "orientation 0")
SAMPLE_C = with_lines(SAMPLE_B, "name C", "vmi 6 8", "font 1 2")
SAMPLE_D = with_lines(SAMPLE_B, "name D", "face 1 10U 10 12 0 0 3 700 900 300 33-126")

SAMPLES = {"@A": SAMPLE_A, "@B": SAMPLE_B, "@C": SAMPLE_C, "@D": SAMPLE_D}
