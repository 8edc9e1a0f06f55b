"""What the makers of generated parts read: the tree, and the built program where one is given."""

import re
from dataclasses import dataclass
from pathlib import Path
from typing import Optional


class Unreadable(Exception):
    """A file does not have the form that a maker reads."""


@dataclass(frozen=True)
class Tree:
    """The tree at a root, and the path of a program or None."""

    root: Path
    program: Optional[Path] = None

    def text(self, path: str) -> str:
        """The text of a file of the tree."""
        return (self.root / path).read_text(encoding="utf-8")

    def block(self, path: str, head: str) -> str:
        """The text of a file from a head at the beginning of a line to the brace that closes it."""
        found = re.search(rf"^{re.escape(head)}.*?^}}", self.text(path), re.MULTILINE | re.DOTALL)
        if found is None:
            raise Unreadable(f"{path} has no `{head}`")
        return found[0]
