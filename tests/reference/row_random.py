"""Rows of random sheets, whole and damaged, asked for with random numbers."""

from .row_edges import framed
from .sheet_random import (
    careless_sheet,
    changed,
    lengthened,
    moved_index,
    noise,
    noise_before_trailer,
    shortened,
    untidy_sheet,
    whole_sheet,
)


def small_sheet(chance):
    return whole_sheet(chance, (1, 2, 3, 5))


def damaged_sheet(chance):
    """A sheet that is likely to be broken."""
    sheet = small_sheet(chance)
    make = chance.pick((changed, changed, shortened, lengthened, moved_index))
    return make(chance, sheet)


def any_state(chance, sheet):
    """A state, mostly below the count that stands in the trailer."""
    count = sheet[-4] if len(sheet) >= 6 else 0
    return chance.below(256) if count == 0 or chance.one_in(8) else chance.below(count + 1) % 256


def asked(chance, label, first, second):
    """A case of two sheets; for one in sixteen any number for the sheet."""
    sheet = chance.below(256) if chance.one_in(16) else chance.pick([1, 2])
    named = second if sheet == 2 else first
    return framed(label, sheet, any_state(chance, named), first, second)


#: How many cases with sheets of each kind, one in either place.
RANDOM = (
    ("whole", 120, small_sheet, small_sheet),
    ("damaged", 60, damaged_sheet, damaged_sheet),
    ("first damaged", 30, damaged_sheet, small_sheet),
    ("second damaged", 30, small_sheet, damaged_sheet),
    ("careless", 50, careless_sheet, careless_sheet),
    ("untidy", 25, untidy_sheet, untidy_sheet),
    ("noise before a trailer", 25, noise_before_trailer, noise_before_trailer),
    ("noise", 10, noise, noise),
)


def random_rows(chance):
    for kind, number, one, other in RANDOM:
        for i in range(number):
            yield asked(chance, f"{kind} {i}", one(chance), other(chance))
