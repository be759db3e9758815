"""Sheets with one fault each, of every kind whose byte is named (document 02,
request 6/13), for either role: in the first row and in the last, at the first
place in it and at the last, and behind the first 255 bytes.  And what a
refusal is for."""

from .sheet_edges import END_ROW, WIDE, loose_sheet, placed, row
from .sheets import CLIENT, MOST_STATES, TRAILER, number_at, row_start

#: Number of states, the one at fault, and the rows of the others.  In the
#: last of them what is at fault lies behind the first 255 bytes.
SETTINGS = [(3, 0, END_ROW), (3, 2, END_ROW), (10, 9, row(WIDE))]

#: The last state of a longest sheet.
FARTHEST = [(MOST_STATES, MOST_STATES - 1, row(WIDE))]


def with_mask(place, mask):
    return row([*WIDE[:place], mask, *WIDE[place + 1 :]], [0] * 14)


def with_successor(place, value):
    return row(WIDE, [value if at == place else 0 for at in range(14)])


#: A longest row with one fault.
ODD_ROWS = [
    ("no ready sets", row(WIDE, count=0)),
    ("nine ready sets", row(WIDE, count=9)),
    ("mask 1 the same", with_mask(1, WIDE[0])),
    ("mask 7 below", with_mask(7, WIDE[6] - 1)),
    ("bit 15 in mask 0", with_mask(0, WIDE[0] | 0x8000)),
    ("bit 15 in mask 7", with_mask(7, WIDE[7] | 0x8000)),
    ("successor 0 too large", with_successor(0, 64)),
    ("successor 13 too large", with_successor(13, 255)),
]

#: How much of a longest row is there: nothing, the count, half a mask, all
#: masks but a byte, all masks, all but a byte.
CUTS = [0, 1, 2, 16, 17, 30]


def in_rows(role, settings):
    """Refusals 5 to 7."""
    for what, odd in ODD_ROWS:
        for states, at, rest in settings:
            yield f"{what}, state {at} of {states}", loose_sheet(placed(states, at, odd, rest), 7, role)


def missing(role, settings):
    """A row cut off, and no rows behind it."""
    for cut in CUTS:
        for states, at, rest in settings:
            rows = [rest] * at + [row(WIDE)[:cut]]
            yield f"row {at} of {states} cut to {cut}", loose_sheet(rows, 7, role, count=states)


def entries(role, settings):
    """An index entry wrong in its low byte, and in its high one."""
    for states, at, rest in settings:
        for by in (1, 256):
            wrong = {at: at * len(rest) ^ by}
            yield f"entry {at} of {states} changed by {by}", loose_sheet([rest] * states, 7, role, entries=wrong)


def left_over(role):
    for states, _, rest in SETTINGS[1:]:
        for size in (1, 5):
            yield f"{size} left over behind {states} rows", loose_sheet([rest] * states, 7, role, gap=bytes(size))


def two_faults(role):
    """In the first row and in the last: the first decides."""
    for (one, first), (other, last) in zip(ODD_ROWS, ODD_ROWS[1:] + ODD_ROWS[:1]):
        yield f"{one}, then {other}", loose_sheet([first, END_ROW, last], 7, role)


def shown(role):
    """Refusals 4 to 7."""
    yield from in_rows(role, SETTINGS)
    yield from missing(role, SETTINGS)
    yield from entries(role, SETTINGS)
    yield from left_over(role)
    yield from two_faults(role)


def farthest(role):
    """The same at the end of a longest sheet."""
    yield from in_rows(role, FARTHEST)
    yield from missing(role, FARTHEST)
    yield from entries(role, FARTHEST)


def not_shown(role):
    """Refusals 1 to 3, which name no byte."""
    whole = loose_sheet([END_ROW, row([1], [1])], 1, role)
    yield "nothing", b""
    yield "five bytes", whole[-5:]
    yield "2,119 bytes", loose_sheet([END_ROW], 7, role, gap=bytes(2108))
    yield "no states", loose_sheet([END_ROW], 7, role, count=0)
    yield "65 states", loose_sheet([END_ROW] * 65, 7, role)
    yield "n 8", loose_sheet([END_ROW], 8, role)
    yield "role 2", loose_sheet([END_ROW], 7, CLIENT + 1)
    yield "closing byte", loose_sheet([END_ROW], 7, role, closing=0xC6)
    yield "index offset", whole[:-6] + bytes([whole[-6] + 1]) + whole[-5:]


def faults(role):
    yield from not_shown(role)
    yield from shown(role)


def faulty_pairs(first_role, second_role):
    """Each fault in the first sheet, in the second, and in both one behind
    another; then in the second, the first of the other role or over other
    names."""
    whole = [loose_sheet([END_ROW], 7, role) for role in (first_role, second_role)]
    first, second = list(faults(first_role)), list(faults(second_role))
    for label, sheet in first:
        yield f"the first: {label}", sheet, whole[1]
    for label, sheet in second:
        yield f"the second: {label}", whole[0], sheet
    for (one, sheet), (two, other) in zip(first, second[1:] + second[:1]):
        yield f"{one}; {two}", sheet, other
    for label, sheet in two_faults(second_role):
        yield f"the first of the other role; {label}", loose_sheet([END_ROW], 7, 1 - first_role), sheet
        yield f"the first over other names; {label}", loose_sheet([END_ROW], 6, first_role), sheet


# What a refusal is for


def index_of(sheet):
    return number_at(sheet, len(sheet) - TRAILER)


def is_missing(sheet, refusal):
    """Whether a byte of a row is missing.  The first entry stands where the
    index begins, so a wrong one has the same offset."""
    at_index = refusal.number == 4 and refusal.offset == index_of(sheet)
    return at_index and (refusal.state > 0 or row_start(sheet, 0) == 0)


def is_entry(sheet, refusal):
    return refusal.number == 4 and refusal.offset >= index_of(sheet) and not is_missing(sheet, refusal)


def is_of_a_mask(sheet, refusal):
    return refusal.number in (5, 6) and refusal.offset > row_start(sheet, refusal.state)
