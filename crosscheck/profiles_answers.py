"""The answers of three printers, in a short form, and the texts that they are put into."""

from dataclasses import dataclass

from profiles_base import Comparison
from profiles_models import new_text


@dataclass(frozen=True)
class Answer:
    """An answer; the papers that it asks for; the panel, the trays and the duplex that come of it,
    and the warnings."""
    model: str
    papers: str
    text: str
    panel: str
    warnings: str


LASERJET_4000 = Answer("hp-laserjet-4000", "letter,a4", """\
@PJL INFO CONFIG
IN TRAYS [3 ENUMERATED]
\tINTRAY1 MP
\tINTRAY2 PC
PAPERS [2 ENUMERATED]
\tLETTER
\tA4
MEMORY=8388608
DISPLAY LINES=1
\f@PJL INFO VARIABLES
COPIES=1 [2 RANGE]
\t1
\t999
PAPER=LETTER [2 ENUMERATED]
\tLETTER
\tA4
ORIENTATION=PORTRAIT [2 ENUMERATED]
\tPORTRAIT
\tLANDSCAPE
FORMLINES=60 [2 RANGE]
\t5
\t128
MANUALFEED=OFF [2 ENUMERATED]
\tOFF
\tON
MPTRAY=FIRST [2 ENUMERATED]
\tCASSETTE
\tFIRST
WIDEA4=NO [2 ENUMERATED]
PERSONALITY=AUTO [3 ENUMERATED]
CPLOCK=OFF [2 ENUMERATED]
LPARM:PCL FONTSOURCE=I [1 ENUMERATED]
LPARM:PCL FONTNUMBER=0 [2 RANGE]
LPARM:PCL PITCH=10.00 [2 RANGE]
LPARM:PCL PTSIZE=12.00 [2 RANGE]
LPARM:PCL SYMSET=PC8 [32 ENUMERATED]
\tDESKTOP
\f""", """\
size 2
orientation 0
vmi 8
font 1
copies 1
sides 0
tray 1 4
trays 1 2 3 4 5 6
duplex 0
""", """\
line 8: MEMORY=8388608: bytes in all; what macros may take is not told
line 31: CPLOCK=OFF: anyone can change the panel; each list promises that nobody does
""")

LASERJET_4250 = Answer("hp-laserjet-4250", "a4,letter", """\
@PJL INFO CONFIG
DUPLEX
MEMORY=67108864
\f@PJL INFO VARIABLES
LANG=ENGLISH [3 ENUMERATED]
COPIES=1 [2 RANGE]
PAPER=A4 [12 ENUMERATED]
ORIENTATION=PORTRAIT [2 ENUMERATED]
FORMLINES=64 [2 RANGE]
MANUALFEED=OFF [2 ENUMERATED]
DUPLEX=ON [2 ENUMERATED]
BINDING=LONGEDGE [2 ENUMERATED]
MPTRAY=CASSETTE [2 ENUMERATED]
INTRAY1SIZE=ANY [3 ENUMERATED]
WIDEA4=NO [2 ENUMERATED]
EDGETOEDGE=NO [2 ENUMERATED]
OVERRIDEA4WITHLETTER=YES [2 ENUMERATED]
APPENDCRTOLF=NO [2 ENUMERATED]
PERSONALITY=AUTO [3 ENUMERATED]
CPLOCK=NONE [4 ENUMERATED]
LPARM:PCL FONTSOURCE=I [1 ENUMERATED]
LPARM:PCL FONTNUMBER=0 [2 RANGE]
LPARM:PCL PITCH=10.00 [2 RANGE]
LPARM:PCL SYMSET=PC8 [32 ENUMERATED]
\f""", """\
size 26
orientation 0
vmi 8
font 1
copies 1
sides 1
tray 1
trays 1 2 3 4 5 6 20
duplex 1
""", """\
line 3: MEMORY=67108864: bytes in all; what macros may take is not told
line 9: FORMLINES=64: the line spacing is reckoned from it; measure ten lines
line 17: OVERRIDEA4WITHLETTER=YES: A4 may come out on letter paper, and letter on A4
line 20: CPLOCK=NONE: anyone can change the panel; each list promises that nobody does
""")

LASERJET_P3015 = Answer("hp-laserjet-p3015", "letter,a4", """\
@PJL INFO CONFIG
DUPLEX
MEMORY=134217728
\f@PJL INFO VARIABLES
COPIES=1 [2 RANGE]
PAPER=LETTER [12 ENUMERATED]
ORIENTATION=LANDSCAPE [2 ENUMERATED]
FORMLINES=60 [2 RANGE]
MANUALFEED=OFF [2 ENUMERATED]
DUPLEX=ON [2 ENUMERATED]
BINDING=SHORTEDGE [2 ENUMERATED]
WIDEA4=YES [2 ENUMERATED]
EDGETOEDGE=NO [2 ENUMERATED]
PERSONALITY=AUTO [4 ENUMERATED]
CPLOCK=NONE [4 ENUMERATED]
LPARM:PCL FONTSOURCE=I [1 ENUMERATED]
LPARM:PCL FONTNUMBER=0 [2 RANGE]
LPARM:PCL PITCH=12.00 [2 RANGE]
LPARM:PCL SYMSET=ROMAN8 [32 ENUMERATED]
\f""", """\
size 2
orientation 1
vmi 6
font 23
copies 1
sides 2
tray 1
trays 1 2 3 4 5 20
duplex 1
""", """\
line 3: MEMORY=134217728: bytes in all; what macros may take is not told
line 12: WIDEA4=YES: the A4 pages have to be those of 80 columns
line 15: CPLOCK=NONE: anyone can change the panel; each list promises that nobody does
""")

ANSWERS = (LASERJET_4000, LASERJET_4250, LASERJET_P3015)
# A comment of the texts of models, which stays.
DRAFT = b"\n# DRAFT: no number of it was measured at a printer.\n"


def put_answer(comparison: Comparison, answer: Answer) -> None:
    comparison.put("answer", answer.text.replace("\n", "\r\n").encode())


def compare_printer(comparison: Comparison, answer: Answer) -> None:
    """A printer's answer in the text of its model, and in that of the papers that it asks for."""
    put_answer(comparison, answer)
    comparison.put("base", new_text(comparison, answer.model, "free", []))
    run = comparison.run("profile", "from-pjl", "answer", "base")
    comparison.require(run.returncode == 0 and run.stdout.startswith(b"pclprofile 1\n")
                       and b"\n" + answer.panel.encode() in run.stdout,
                       f"{answer.model}: {run.stdout[:3000]!r}")
    comparison.require(run.stderr == answer.warnings.encode(), f"{answer.model}: {run.stderr!r}")
    comparison.put("base", new_text(comparison, "generic", "fixed", answer.papers.split(",")))
    alone = comparison.output("profile", "from-pjl", "answer")
    comparison.require(alone == comparison.output("profile", "from-pjl", "answer", "base"),
                       f"{answer.model}: the papers that its answer asks for")


def compare_model(comparison: Comparison, model: str, answer: Answer) -> None:
    """The text of a model takes an answer; the same answer changes nothing more."""
    put_answer(comparison, answer)
    comparison.put("base", new_text(comparison, model, "free", []))
    made = comparison.run("profile", "from-pjl", "answer", "base").stdout
    comparison.require(b"\ncopies 1\n" in made and DRAFT in made,
                       f"{model} does not take the answer of {answer.model}")
    comparison.put("base", made)
    again = comparison.run("profile", "from-pjl", "answer", "base").stdout
    comparison.require(again == made, f"{model} with the answer of {answer.model} again")


def compare_answers(comparison: Comparison) -> None:
    for answer in ANSWERS:
        compare_printer(comparison, answer)
        for model in comparison.models():
            compare_model(comparison, model, answer)
