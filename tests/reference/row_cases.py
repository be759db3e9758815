"""Rows to be shown.

A case is: the sheet's number (one byte), the state (one byte), the first
sheet's length (16 bits), that sheet, and the second to the end.

Its line is: number, sheet, state, offset of the refusal; the sheet that the
part is of, where it begins, how long it is; then every byte of the part.
"""

from .chance import Chance
from .row_edges import edges
from .row_random import random_rows
from .rows import part_bytes, show_row

SEED = 20100911


def arguments(data):
    """The two sheets, the number of the one that is named, and the state."""
    behind = 4 + int.from_bytes(data[2:4], "little")
    return data[4:behind], data[behind:], data[0], data[1]


def expected(data):
    first, second, sheet, state = arguments(data)
    answer, part = show_row(first, second, sheet, state)
    figures = [answer.number, answer.sheet, answer.state, answer.offset, *part, *part_bytes(first, second, part)]
    return " ".join(map(str, figures)) + "\n"


def group(data):
    """The number, and the sheet of the refusal or the part."""
    answer, part = show_row(*arguments(data))
    return f"{answer.number:2} sheet {answer.sheet if answer.number else part.sheet}"


def cases():
    """Every edge, then random sheets; no case twice."""
    seen = set()
    for case in (*edges(), *random_rows(Chance(SEED))):
        if case.data not in seen:
            seen.add(case.data)
            yield case
