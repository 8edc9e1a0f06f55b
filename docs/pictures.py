"""Compares the pictures in docs/pictures with what a program draws, or draws them anew.

    python3 docs/pictures.py PROGRAM [--write]

There is a picture of the first page of each example that passes on the sample B and has a page, of
each page of the test sheet of a shipped profile, and of the page of the README that fails. Beside
them stands a screenshot of a report, which is not compared; no other file is there. Prints a line
for each that differs, and at last `N compared, M differ`. The exit status is 0 where M is 0, else
1.

The screenshot is made by hand, in `examples` and with the page that fails as `wide_total.pcl`: of
`check -f shop.fleet --format html --explain letter.pcl invoice.pcl unset_size.pcl ruled_form.pcl
no_page.pcl old_host.pcl gone.pcl wide_total.pcl`, in a light window of Chromium of 900 by 700
pixels with the last row open, the upper 1260 pixels in 63 colours. It has at most 120 KB.
"""

import subprocess
import sys
import tempfile
from pathlib import Path
from typing import Dict, List

ROOT = Path(__file__).resolve().parent.parent
PICTURES = ROOT / "docs" / "pictures"
PRINTER = "@B"
SHEET_OF = ROOT / "profiles" / "generic.profile"
EXAMPLES = ROOT / "examples"
# The page that fails is an example whose last box was made wider. Its picture has its name.
FAILING = "wide_total"
NARROW, WIDE = b"c750a120b", b"c900a120b"
SCREENSHOTS = {"report_of_jobs.png", "page_in_browser.png"}


def output(program: str, *words: str) -> bytes:
    """What the program writes, where it succeeds, and else nothing."""
    ran = subprocess.run([program, *words], capture_output=True, check=False)
    return ran.stdout if ran.returncode == 0 else b""


def pictures_of_examples(program: str) -> Dict[str, bytes]:
    """The pictures of the first pages of examples, by their names."""
    jobs = sorted(EXAMPLES.glob("*.pcl"))
    drawn = {job.stem: output(program, "picture", str(job), PRINTER) for job in jobs}
    return {name: picture for name, picture in drawn.items() if picture}


def pictures_of_sheet(program: str) -> Dict[str, bytes]:
    """The pictures of the pages of a test sheet."""
    with tempfile.TemporaryDirectory() as folder:
        sheet = str(Path(folder) / "sheet.pcl")
        output(program, "profile", "sheet", str(SHEET_OF), sheet)
        drawn = {}
        while page := output(
            program, "picture", sheet, str(SHEET_OF), "--page", str(len(drawn) + 1)
        ):
            drawn[f"sheet_page_{len(drawn) + 1}"] = page
        return drawn


def picture_of_failure(program: str) -> Dict[str, bytes]:
    """The picture of the page that fails, whose sentence has the name of the job as it is given."""
    with tempfile.TemporaryDirectory() as folder:
        job = Path(folder) / f"{FAILING}.pcl"
        job.write_bytes((EXAMPLES / "invoice.pcl").read_bytes().replace(NARROW, WIDE))
        words = ("picture", job.name, str(EXAMPLES / "front_desk.profile"))
        ran = subprocess.run([program, *words], cwd=folder, capture_output=True, check=False)
    return {FAILING: ran.stdout}


def differences(due: Dict[str, bytes]) -> List[str]:
    """What differs between the files and the pictures that are due."""
    kept = {path.name: path.read_bytes() for path in PICTURES.iterdir()}
    names = {f"{name}.svg" for name in due} | SCREENSHOTS
    wrong = [f"{name} is not drawn" for name in sorted(set(kept) - names)]
    wrong += [f"{name} is not there" for name in sorted(SCREENSHOTS - set(kept))]
    wrong += [
        f"{name}.svg is not what the program draws"
        for name, picture in due.items()
        if kept.get(f"{name}.svg") != picture
    ]
    return wrong


def main() -> int:
    if len(sys.argv) not in (2, 3) or sys.argv[2:] not in ([], ["--write"]):
        print(__doc__, file=sys.stderr)
        return 2
    program = str(Path(sys.argv[1]).resolve())
    due = {
        **pictures_of_examples(program),
        **pictures_of_sheet(program),
        **picture_of_failure(program),
    }
    if sys.argv[2:]:
        for name, picture in due.items():
            (PICTURES / f"{name}.svg").write_bytes(picture)
    wrong = differences(due)
    for line in wrong:
        print(line)
    print(f"{len(due)} compared, {len(wrong)} differ")
    return int(bool(wrong) or not due)


if __name__ == "__main__":
    sys.exit(main())
