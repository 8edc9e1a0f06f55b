"""Who says no to a job: the kind of what is wrong, by its number and the item at its place.

A value that a command does not take is wrong, or it is unchecked: the manual has it, and the
language leaves it out. Where the item takes its value, one in a macro that it runs is meant, or in
an overlay, which is unchecked, too.
"""

import re
from typing import Optional

BAD_VALUE = 10
UNCHECKED, WRONG, PRINTER, PANEL, DIFFERS = "unchecked", "wrong", "printer", "panel", "differs"
KINDS = {
    **dict.fromkeys((1, 2, 6, 18, 19, 20, 23, 24, 26, 27, 28, 29, 30, 32, 35), WRONG),
    **dict.fromkeys((3, 4, 5, 25, 31, 34), UNCHECKED),
    **dict.fromkeys((11, 13, 14, 15, 16, 17, 21, 22, 36), PRINTER),
    12: PANEL,
    33: DIFFERS,
}
COMMAND = re.compile(r"ESC ([&*(][a-z])([+-]?)(\d+)(\.\d+)?([A-Z])")
# Whole values of the manual that a command does not take, and values of those that run macros.
LEFT_OUT = {
    "(sP": {1}, "*bM": {1, 2, 3, 5, 9}, "*tR": range(1, 65536), "*rA": {2, 3}, "*cP": {4, 5},
    "&fX": range(11), "&lA": range(1, 1000), "&lO": range(4), "&lS": range(3), "&lH": range(256),
}
# These take decimals, and have no other values in the manual.
WITH_DECIMALS = ("&lC", "&kH")


def is_left_out(command: Optional[str]) -> bool:
    """Whether a value that is not taken is one of the manual, or stands in a macro."""
    if command is None or not command.startswith("ESC "):
        return True                     # the end of the job, a control code, SP or PW
    found = COMMAND.fullmatch(command)
    if found is None:
        return not command.startswith("ESC (")      # a symbol set, or an item without a value
    group, sign, whole, decimals, letter = found.groups()
    if group + letter in WITH_DECIMALS or sign == "-" and (int(whole) or decimals):
        return False
    return decimals is not None or int(whole) in LEFT_OUT.get(group + letter, ())


def kind_of(code: int, command: Optional[str]) -> str:
    """The kind of what is wrong by a number, at an item as sentences and objects have it."""
    if code == BAD_VALUE:
        return UNCHECKED if is_left_out(command) else WRONG
    return KINDS[code]
