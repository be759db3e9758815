"""Sheets to be checked: a case is a sheet, its line is number, state and
offset of its refusal, or 0 0 0 for a whole sheet."""

from .chance import Chance
from .sheet_edges import edges
from .sheet_noise import masks_with_noise
from .sheet_random import random_sheets
from .sheets import Refusal, read_sheet

SEED = 20100901


def cases():
    """Every edge, then random sheets, then masks with noise, no sheet twice."""
    seen = set()
    for case in (*edges(), *random_sheets(Chance(SEED)), *masks_with_noise()):
        if case.data not in seen:
            seen.add(case.data)
            yield case


def expected(data):
    read = read_sheet(data)
    refusal = read if isinstance(read, Refusal) else Refusal(0)
    return f"{refusal.number} {refusal.state} {refusal.offset}\n"


def group(data):
    """What a table of the cases counts them by: the refusal's number."""
    return int(expected(data).split()[0])
