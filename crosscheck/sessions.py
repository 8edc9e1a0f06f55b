"""Runs the sessions that the documents show, and some stored runs, with a program.

    python3 crosscheck/sessions.py PROGRAM [--without WORD]     but those that have a word

A session is a line that begins with `$ ` and the lines behind it, up to an empty line or the next
one: what is then written on standard output and standard error. Those of a document run in one copy
of the examples. A stored run also tells the exit status and keeps the two streams apart. Prints a
line for each that differs, and at last `N run, M differ`. The exit status is 0 where M is 0, else
1.
"""

import re
import shutil
import subprocess
import sys
import tempfile
from contextlib import contextmanager
from pathlib import Path
from typing import Iterator, List, Tuple

ROOT = Path(__file__).resolve().parent.parent
DOCUMENTS = (ROOT / "README.md", *sorted(ROOT.glob("examples/*.md")),
             *sorted(ROOT.glob("docs/*.md")))
# Lines that say where the sessions are given, and what the word `pclcheck` is there.
SETTING = re.compile(r"cd examples$|alias pclcheck=")

GONE = "No such file or directory"
INPUT_AGAIN = ("error: standard input can be read only once, as one job or as the list, without "
               "--notes and --each\n")
PIPE_AGAIN = ("error: /dev/null: a job that is no file can be read only once; "
              "--each reads it for each printer, and --notes once more\n")
PIPE_TO_DRAW = ("error: /dev/null: a job that is no file can be read only once; "
                "a picture is drawn at a second reading\n")
NO_VERSION = ": the first line has to be 'pclprofile 1' or 'pclprofile 2' (Version)\n"
FAULTY = f"faulty.pcl:1: 'A\\x1bQ'{NO_VERSION}"
# Words, exit status, standard output, standard error.
STORED = (
    ("check ruled_form.pcl @B", 0, "PASS pages=2 marks=36\n", ""),
    ("check invoice.pcl front_desk.profile export_desk.profile", 1,
     "FAIL at=2 profile=2 11 NotOnDevice\n", ""),
    ("check unset_size.pcl @A", 1, "FAIL at=2 profile=1 12 Unset(Size)\n", ""),
    ("check ruled_form.pcl @B invoice.pcl", 2, "", "ERROR profile 2 1 Version\n"),
    ("check gone.pcl @B", 3, "", "ERROR read\n"),
    ("check ruled_form.pcl gone.profile", 3, "", "ERROR read\n"),
    ("check -f shop.fleet ruled_form.pcl unset_size.pcl", 1,
     "PASS pages=2 marks=36 ruled_form.pcl\n"
     "FAIL at=2 printer=back-office 12 Unset(Size) unset_size.pcl\n", ""),
    ("check -f shop.fleet --exit-zero unset_size.pcl", 0,
     "FAIL at=2 printer=back-office 12 Unset(Size) unset_size.pcl\n", ""),
    ("check --each unset_size.pcl @A @B", 1,
     "FAIL at=2 printer=A 12 Unset(Size) unset_size.pcl\n"
     "PASS pages=2 marks=36 printer=B unset_size.pcl\n", ""),
    ("check -p @B gone.pcl ruled_form.pcl faulty.pcl", 3,
     f"ERROR read gone.pcl: {GONE}\nPASS pages=2 marks=36 ruled_form.pcl\n"
     "FAIL at=1 3 NotInProfile(Q) faulty.pcl\n", ""),
    ("check -p @B --most-items 6 macros.pcl", 0, "PASS pages=0 marks=0 macros.pcl\n", ""),
    ("check --most-items 5 macros.pcl @B", 3, "ERROR items macros.pcl\n", ""),
    ("check -p @B --most-items 5 macros.pcl faulty.pcl", 3,
     "ERROR items macros.pcl\nFAIL at=1 3 NotInProfile(Q) faulty.pcl\n", ""),
    ("check -p @B -p invoice.pcl ruled_form.pcl", 2, "",
     "ERROR profile 2 invoice.pcl:1 Version\n"),
    ("check -p @B -p gone.profile ruled_form.pcl", 3, "",
     f"ERROR read profile gone.profile: {GONE}\n"),
    ("check -f gone.fleet ruled_form.pcl", 2, "", f"ERROR read fleet gone.fleet: {GONE}\n"),
    ("check -f empty.pcl ruled_form.pcl", 2, "", "ERROR fleet empty.pcl: names no printer\n"),
    ("check -p @B --files0-from gone", 3, "", f"ERROR read names gone: {GONE}\n"),
    ("check --each -p @A -p @B -", 2, "", INPUT_AGAIN),
    ("check -p @B - ruled_form.pcl -", 2, "", INPUT_AGAIN),
    ("check -p @B --each /dev/null", 0, "PASS pages=0 marks=0 printer=B /dev/null\n", ""),
    ("check -p @A -p @B --each ruled_form.pcl /dev/null", 2, "", PIPE_AGAIN),
    ("check -p @B --notes ruled_form.pcl -", 2, "", INPUT_AGAIN),
    ("check -p @B --notes /dev/null", 2, "", PIPE_AGAIN),
    ("picture /dev/null @B", 2, "", PIPE_TO_DRAW),
    ("check -p @B --notes gone.pcl", 3, f"ERROR read gone.pcl: {GONE}\n", ""),
    ("check --format words ruled_form.pcl @B", 0,
     "ruled_form.pcl: each printer prints this job (pages=2 marks=36)\n", ""),
    ("check --format json --each -p @B gone.pcl ruled_form.pcl", 3,
     '{"cause":"No such file or directory","error":"read","job":"gone.pcl","printer":"B",'
     '"verdict":"ERROR"}\n'
     '{"job":"ruled_form.pcl","marks":36,"pages":2,"printer":"B","verdict":"PASS"}\n', ""),
    ("check --format words -p invoice.pcl ruled_form.pcl", 2, "",
     "invoice.pcl: line 1: this is neither 'pclprofile 1' nor 'pclprofile 2', so no profile; "
     "jobs come behind -p or -f (ERROR profile 1 Version)\n"
     "invoice.pcl: this is a job, where a profile has to stand; -p takes a profile, and without "
     "-p JOB stands before the PROFILEs\n"),
    ("check --format xml ruled_form.pcl @B", 2, "",
     "error: invalid value 'xml' for '--format <FORM>'\n"
     "  [possible values: line, words, json, html]\n\n  tip: a similar value exists: 'html'\n\n"
     "For more information, try '--help'.\n"),
    ("list short.pcl", 0, "0 \\x1bE\n2 A\n3 \\x1b&l2A\n8 \\x0c\n", ""),
    ("list faulty.pcl", 1, "0 A\n1 FAULT 3 NotInProfile(Q)\n", ""),
    ("list gone.pcl", 3, "", "ERROR read\n"),
    ("pages empty.pcl @B", 0, "", ""),
    ("pages unset_size.pcl gone.profile", 3, "", "ERROR read\n"),
    ("plain short.pcl short.pcl", 2, "", "error: OUT is JOB itself, which would be lost\n"),
    ("explain 999", 2, "", "error: no fault, finding, note or command has the number or the name "
                           "'999'; 'pclcheck explain' writes all, 'pclcheck explain commands' "
                           "lists the commands\n"),
    ("profile new hp-laserjet-iii --size a4", 2, "",
     "error: no model has the name 'hp-laserjet-iii'; 'pclcheck profile list' names all\n"),
    ("profile new generic --size a4,folio", 2, "",
     "error: no paper has the name 'folio'; 'pclcheck profile list' names those of each model\n"),
    ("profile new generic --size a4,A4", 2, "", "error: the paper 'A4' comes twice\n"),
    ("profile lint faulty.pcl empty.pcl", 2,
     f"{FAULTY}empty.pcl:1: ''{NO_VERSION}", ""),
    ("profile lint faulty.pcl gone.profile", 3, "",
     f"ERROR read profile gone.profile: {GONE}\n"),
    ("profile show faulty.pcl", 2, "", FAULTY),
    ("profile sheet faulty.pcl sheet.pcl", 2, "", FAULTY),
    ("profile show gone.profile", 3, "", f"ERROR read profile gone.profile: {GONE}\n"),
    ("profile sheet @A gone/sheet.pcl", 3, "", "ERROR write\n"),
    ("profile sheet front_desk.profile ./front_desk.profile", 2, "",
     "error: OUT is PROFILE itself, which would be lost\n"),
    ("profile from-pjl gone.txt @B", 3, "", f"ERROR read answer gone.txt: {GONE}\n"),
    ("profile from-pjl short.pcl", 2, "",
     "short.pcl:1: this is not a printer's answer to '@PJL INFO VARIABLES'\n"),
    ("profile from-pjl answer.txt faulty.pcl", 2, "", FAULTY),
)
FILES = {"short.pcl": b"\x1bEA\x1b&l2A\x0c", "faulty.pcl": b"A\x1bQ", "empty.pcl": b"",
         "answer.txt": b"PAPER=A4\r\n",
         # A macro of three items, which is executed and called.
         "macros.pcl": b"\x1b&f1Y\x1b&f0X\r\r\r\x1b&f1X\x1b&f2X\x1b&f3X"}


@contextmanager
def examples(program: Path) -> Iterator[Path]:
    """A copy of the examples with the program, in which no other document has left files."""
    with tempfile.TemporaryDirectory(prefix="sessions-") as name:
        folder = Path(name) / "examples"
        shutil.copytree(ROOT / "examples", folder)
        shutil.copytree(ROOT / "docs" / "pictures", Path(name) / "docs" / "pictures")
        (folder / "pclcheck").symlink_to(program)
        for file, text in FILES.items():
            (folder / file).write_bytes(text)
        yield folder


def sessions(document: Path) -> Iterator[Tuple[str, str]]:
    """The commands of a document, each with what it writes, without the indent of the block. In a
    block between fences an empty line may stand in what is written."""
    command, written, indent, ends = None, [], "", r" *(\$ |```|$)"
    for line in document.read_text().splitlines() + ["```"]:
        if command is not None and re.match(ends, line):
            yield command, "\n".join(written).rstrip("\n") + "\n" if written else ""
            command = None
        begins = re.match(r"( *)\$ (.*)$", line)
        if begins:
            indent, command = begins.groups()
            written = []
        elif command is not None:
            written.append(line.removeprefix(indent))
        if line.startswith("```"):
            ends = r"\$ |```" if ends.startswith(" ") else r" *(\$ |```|$)"


def shown(session: Tuple[str, str], folder: Path) -> List[str]:
    """What differs in a session."""
    command, due = session
    run = subprocess.run(["sh", "-c", f'PATH=.:$PATH; {command}'], cwd=folder, text=True,
                         stdout=subprocess.PIPE, stderr=subprocess.STDOUT)
    return [] if run.stdout == due else [f"$ {command}: {run.stdout!r}, due {due!r}"]


def stored(row: Tuple[str, int, str, str], folder: Path) -> List[str]:
    """What differs in a stored run."""
    words, *due = row
    run = subprocess.run(["./pclcheck", *words.split()], cwd=folder, text=True,
                         capture_output=True)
    came = [run.returncode, run.stdout, run.stderr]
    return [] if came == due else [f"pclcheck {words}: {came}, due {due}"]


def main() -> int:
    if len(sys.argv) not in (2, 4) or sys.argv[2:3] not in ([], ["--without"]):
        print(__doc__.strip(), file=sys.stderr)
        return 2
    program = Path(sys.argv[1]).resolve()
    left_out = re.compile(rf"{SETTING.pattern}|.*{re.escape(sys.argv[3])}"
                          if sys.argv[3:] else SETTING.pattern)
    differing, count = [], 0
    for document in DOCUMENTS:
        with examples(program) as folder:
            for session in sessions(document):
                if not left_out.match(session[0]):
                    differing += shown(session, folder)
                    count += 1
    with examples(program) as folder:
        for row in STORED:
            differing += stored(row, folder)
            count += 1
    for line in differing:
        print("differs:", line)
    print(f"{count} run, {len(differing)} differ")
    return 1 if differing or not count else 0


if __name__ == "__main__":
    sys.exit(main())
