"""Runs the worked examples, and the rows of verdicts, against the oracle alone:
`python3 crosscheck/rows.py`."""

import sys
from typing import Iterator, List, Tuple

sys.dont_write_bytecode = True

import oracle                                                      # noqa: E402
import verdicts                                                    # noqa: E402
from examples import TABLES, profile_text, unescape                # noqa: E402

PAGE_1 = "page 1 size=2 orientation=0 sides=0 tray=1 copies=1"


def answer_of(command: str, profiles: str, job: bytes) -> oracle.Answer:
    texts = [profile_text(spec) for spec in profiles.split(" & ")] if profiles else []
    if command == "check":
        return oracle.check(texts, job)
    if command == "pages":
        return oracle.pages(texts[0], job)
    if command == "list":
        return oracle.list_job(job)
    if command == "plain":
        return oracle.plain_job(job)
    return oracle.pin(texts[0], job)


def differences(row) -> list:
    command, profiles, job, printed = row[:4]
    answer = answer_of(command, profiles, unescape(job))
    lines = [PAGE_1 if line == "P1" else line for line in printed.split(" | ")] \
        if printed else []
    found = answer.output.decode().splitlines() + answer.errors
    wrong = []
    if found != lines:
        wrong.append(f"printed {found}, due {lines}")
    if len(row) > 4 and answer.written != unescape(row[4]):
        wrong.append(f"written {answer.written!r}, due {unescape(row[4])!r}")
    return wrong


def worked_examples() -> Iterator[Tuple[str, List[str]]]:
    """Each example by its words, and what is wrong with it."""
    for table in TABLES:
        for row in table.ROWS:
            yield f"{row[0]} of {row[2]} on {row[1]}", differences(row)


def rows_of_verdicts() -> Iterator[Tuple[str, List[str]]]:
    """Each row by its file and line, and what is wrong with it."""
    for path in sorted(verdicts.ROWS.glob("*.rows")):
        for number, fleet, due, job in verdicts.rows_of(path):
            answer = oracle.check([text.encode() for text in fleet], job)
            is_due = answer.output.decode() == due + "\n"
            yield (f"{path.name}:{number}",
                   [] if is_due else [f"printed {answer.output!r}, due {due!r}"])


def main() -> int:
    passed = failed = 0
    for name, wrong in (*worked_examples(), *rows_of_verdicts()):
        for text in wrong:
            print(f"{name}: {text}")
        passed += not wrong
        failed += bool(wrong)
    print(f"{passed} passed, {failed} failed")
    return 1 if failed else 0


if __name__ == "__main__":
    sys.exit(main())
