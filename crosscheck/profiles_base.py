"""What the comparisons of profiles share: the runs of one program, and what differs."""

import subprocess
from pathlib import Path
from typing import Dict, List


class Comparison:
    """What was compared, with one program, in a folder."""

    def __init__(self, program: str, folder: Path):
        self.program = Path(program).resolve()
        self.folder = folder
        self.compared = 0
        self.wrong: List[str] = []

    def run(self, *words: str) -> subprocess.CompletedProcess:
        """A run of the program."""
        return subprocess.run([self.program, *words], cwd=self.folder, capture_output=True,
                              check=False)

    def output(self, *words: str) -> bytes:
        """What the program writes on both streams."""
        ran = self.run(*words)
        return ran.stdout + ran.stderr

    def put(self, name: str, text: bytes) -> None:
        (self.folder / name).write_bytes(text)

    def require(self, holds: bool, told: str) -> None:
        self.compared += 1
        if not holds:
            self.wrong.append(told)

    def models(self) -> Dict[str, List[str]]:
        """The models, each with its papers."""
        lines = self.output("profile", "list").decode().splitlines()
        return {line.split(":")[0]: line.split("papers: ")[1].split() for line in lines}
