"""Counts what was compared, and prints what differs."""

from typing import Dict, Optional

from help_text import words_of
from man_text import Section


class Comparison:
    """What was compared so far, and how much of it differs."""

    def __init__(self) -> None:
        self.compared = 0
        self.differing = 0

    def holds(self, told: str, right: bool) -> None:
        """Counts one comparison, and tells of it where it is not right."""
        self.compared += 1
        if not right:
            self.differing += 1
            print("differs:", told)

    def same(self, what: str, came: object, due: object) -> None:
        self.holds(f"{what}: {came!r}, due {due!r}", came == due)

    def same_entries(self, what: str, section: Section, due: Dict[str, str]) -> None:
        """The entries of a section are exactly these."""
        for tag in sorted({*section.entries, *due}):
            came = section.entries.get(tag)
            self.same(f"{what}, {tag}", None if came is None else words_of(came), due.get(tag))

    def same_words(self, what: str, came: Dict[str, Optional[str]], due: Dict[str, str]) -> None:
        """These words are offered and no others; where something is told of one, it is this."""
        for word in sorted({*came, *due}):
            self.holds(f"{what}: {word} is offered and not the program's", word in due)
            self.holds(f"{what}: {word} is not offered", word in came)
            if came.get(word) is not None:
                self.same(f"{what}: {word}", came[word], due.get(word))

    def ended(self) -> int:
        """Prints the last line, and gives the exit status."""
        print(f"{self.compared} compared, {self.differing} differ")
        return 1 if self.differing or not self.compared else 0
