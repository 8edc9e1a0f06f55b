"""Compares what the module answers on the examples with what a program writes.

    python3 try_module.py PROGRAM EXAMPLES
"""

import subprocess
import sys
import threading
from fractions import Fraction
from pathlib import Path

import pclcheck

PROFILES = ("front_desk.profile", "back_office.profile", "export_desk.profile")
THREADS = 8
PIECE = 100


def written(program: str, folder: Path, *words: str) -> str:
    return subprocess.run([program, *words], cwd=folder, capture_output=True, text=True,
                          check=False).stdout


def raised(call) -> str:
    """The name of what a call raises."""
    try:
        call()
    except Exception as error:                  # pylint: disable=broad-except
        return type(error).__name__
    return ""


def try_job(program: str, folder: Path, fleet: pclcheck.Fleet, name: str) -> None:
    job = (folder / name).read_bytes()
    profile = (folder / PROFILES[0]).read_bytes()
    fleet_words = [word for path in PROFILES for word in ("-p", path)]
    verdict = fleet.check(job, name)
    words = ["check", "--format", "words", *fleet_words, name]
    assert verdict.sentence + "\n" == written(program, folder, *words), name
    with fleet.session() as session:
        for at in range(0, len(job), PIECE):
            if session.feed(job[at:at + PIECE]):
                break
        assert session.end(name) == session.end(name) == verdict, name
    each = "".join(f"{one.sentence}\n" for one in fleet.check_each(job, name))
    assert each == written(program, folder, *words[:3], "--each", *words[3:]), name
    assert bool(verdict) == verdict.passes == (verdict.number == 0)
    assert pclcheck.list_items(job).text.decode() == written(program, folder, "list", name)
    for call, command in ((pclcheck.pages, "pages"), (pclcheck.notes, "notes")):
        assert call(job, profile).text.decode() == written(program, folder, command, name,
                                                           PROFILES[0]), (command, name)
    assert pclcheck.plain(pclcheck.plain(job).text).text == pclcheck.plain(job).text


def try_errors(folder: Path, fleet: pclcheck.Fleet) -> None:
    job, profile = (folder / "letter.pcl").read_bytes(), (folder / PROFILES[0]).read_bytes()
    assert raised(lambda: fleet.add(profile + b"copies 1\n")) == "ProfileRefused"
    assert len(fleet) == len(PROFILES)
    assert pclcheck.profile_faults(profile) == ""
    assert "copies" in pclcheck.profile_faults(profile + b"copies 1\n")
    assert raised(lambda: fleet.check(job, printer=4)) == "IndexError"
    assert raised(lambda: pclcheck.picture(job, profile, 3)) == "NoPage"
    assert raised(lambda: pclcheck.explain("no such thing")) == "Unknown"
    assert raised(lambda: pclcheck.pin(job, profile, {"size": 999})) == "PanelRefused"
    assert raised(lambda: pclcheck.pin(job, profile, {"paper": 2})) == "PanelRefused"
    assert raised(lambda: pclcheck.Fleet().check_each(job)) == "IndexError"
    assert raised(lambda: fleet.check(job, printer=2 ** 64)) == "IndexError"
    assert raised(lambda: pclcheck.picture(job, profile, 2 ** 64)) == "ValueError"
    for other in (folder / "letter.pcl", "letter.pcl", 3):
        assert raised(lambda: fleet.check(other)) == "TypeError", other
    assert fleet.check(job, "\udce9.pcl").sentence
    assert raised(lambda: pclcheck.Fleet().check(job)) == "IndexError"
    pinned = pclcheck.pin(job, profile, {"vmi": Fraction(8)})
    assert pinned.verdict and pinned.text
    closed = pclcheck.Fleet()
    closed.close()
    closed.close()
    assert raised(lambda: closed.check(job)) == "ValueError"
    session = fleet.session()
    assert raised(lambda: fleet.add(profile)) == "ValueError"
    session.close()
    session.close()
    assert raised(lambda: session.feed(job)) == "ValueError"
    limited = pclcheck.Fleet(profile, most_items=0)
    macros = b"\x1b&f1Y\x1b&f0X\r\x1b&f1X\x1b&f2X"
    assert raised(lambda: limited.check(macros)) == "TooManyItems"
    assert not raised(lambda: fleet.check(macros))


def try_threads(folder: Path, fleet: pclcheck.Fleet) -> None:
    """One fleet, used by several threads."""
    job = (folder / "unset_size.pcl").read_bytes()
    due, came = fleet.check(job), []
    threads = [threading.Thread(target=lambda: came.append(fleet.check(job)))
               for _ in range(THREADS)]
    for thread in threads:
        thread.start()
    for thread in threads:
        thread.join()
    assert came == [due] * THREADS


def main(program: str, folder: Path) -> None:
    assert written(program, folder, "--version") == f"pclcheck {pclcheck.version()}\n"
    for code in ("12", "12 Unset(Size)", "&f0S"):
        assert pclcheck.explain(code) == written(program, folder, "explain", code)
    assert pclcheck.explain(12) == pclcheck.explain("12")
    with pclcheck.Fleet.of_files(*(folder / name for name in PROFILES)) as fleet:
        for path in sorted(folder.glob("*.pcl")):
            try_job(program, folder, fleet, path.name)
        try_errors(folder, fleet)
        try_threads(folder, fleet)


if __name__ == "__main__":
    main(sys.argv[1], Path(sys.argv[2]))
