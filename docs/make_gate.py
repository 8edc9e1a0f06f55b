"""What CONTRIBUTING.md has of the gate: its parts in order, made from .ci/run and the scripts.

`MAKERS` has the part by its name. It needs no program.
"""

import ast
import re

RUN = ".ci/run"
# A line of .ci/run that runs a script of the tree.
PART = re.compile(r"(?m)^(?:exec )?(?:python3 )?([\w.]+/[\w/]+(?:\.py)?)\b")


def first_paragraph(text: str) -> str:
    """The words with which a script's comment begins, before how it is called."""
    comment = ast.get_docstring(ast.parse(text)) or ""
    words = " ".join(comment.split("\n\n")[0].split())
    return re.split(r": `python3 |\.$", words)[0]


def parts_of_gate(tree) -> str:
    """A row for each script of .ci/run, where it comes first."""
    run = (tree.root / RUN).read_text(encoding="utf-8")
    rows = ["| Part | What it does |", "|---|---|"]
    for path in dict.fromkeys(PART.findall(run)):
        text = (tree.root / path).read_text(encoding="utf-8")
        rows.append(f"| `{path}` | {first_paragraph(text)} |")
    return "\n".join(rows)


MAKERS = {"gate": parts_of_gate}
