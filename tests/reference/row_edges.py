"""Rows asked for at every edge of request 6/13 of document 02."""

from itertools import permutations, product

from .actions import ACTIONS, SUCCESS
from .cases import M1_NEW, M1_OLD
from .framing import Framed, measured
from .sheet_edges import END_ROW, WIDE, loose_sheet, placed, row
from .sheet_faults import farthest, faults
from .sheets import CLIENT, MOST_READY, MOST_STATES, SERVICE

#: The shortest row and the longest.
SHORTEST, LONGEST_ROW = END_ROW, row(WIDE, [2, 0, 1] * 4 + [2, 1])

#: Whole sheets for the place that is not asked about; the second has more
#: states.  And one with a successor that is none.
OTHERS = [M1_OLD, loose_sheet([row([3], [1, 2]), row([2], [3]), END_ROW, row([0, 1], [0])], 2)]
BROKEN = M1_NEW[:3] + b"\2" + M1_NEW[4:]


def framed(label, sheet, state, first, second):
    return Framed(f"{label}, sheet {sheet}, state {state}", bytes([sheet, state]) + measured(first) + second)


def in_place(label, sheet, state, named, other=OTHERS[0]):
    """A case with a sheet in the place that is asked about."""
    return framed(label, sheet, state, *((named, other) if sheet == 1 else (other, named)))


def row_of(ready, actions, successor=0):
    """A row of so many ready sets that offers so many actions."""
    masks = [*range(ready - 1), (1 << actions) - 1]
    return row(masks, [successor] * actions)


# Which sheet, and which state


def sheet_numbers():
    """Each number with whole and broken sheets in both places."""
    kinds = {"whole": M1_NEW, "broken": BROKEN, "empty": b""}
    for sheet, (one, other) in product((0, 1, 2, 3, 127, 128, 129, 130, 254, 255), product(kinds, kinds)):
        for state in (1, 2):
            yield framed(f"{one} and {other}", sheet, state, kinds[one], kinds[other])


def varied(states):
    """Rows of many lengths; what they hold differs as well."""
    return [row_of(1 + state % 3, 2 + state % 5, (state + 1) % states) for state in range(states)]


def states():
    """The first, the last, and those that are not there; the other sheet has
    more of them or fewer."""
    for count in (1, 2, 4, MOST_STATES):
        named = loose_sheet(varied(count))
        asked = sorted({0, count - 1, count, count + 1, 63, 64, 65, 127, 128, 254, 255})
        for sheet, state in product((1, 2), asked):
            yield in_place(f"{count} states", sheet, state, named, OTHERS[state % 2])


def every_state():
    """Each row of two sheets that begin in the same way."""
    first, second = loose_sheet(varied(16)), loose_sheet(varied(17))
    for number, state in product((1, 2), range(17)):
        yield framed("16 states and 17", number, state, first, second)


def same_bytes():
    """The same sheet twice: only the part's sheet differs."""
    for count in (1, 2, 5):
        sheet = loose_sheet(varied(count))
        for number, state in product((1, 2), range(count + 1)):
            yield framed(f"{count} states twice", number, state, sheet, sheet)


# Rows of each form


def lengths():
    """The shortest, the longest and another row, each first, between, last."""
    kinds = {"shortest": SHORTEST, "longest": LONGEST_ROW, "another": row([1, 6], [1, 2, 0])}
    for order in permutations(kinds):
        sheet = loose_sheet([kinds[kind] for kind in order])
        for number, state in product((1, 2), range(3)):
            yield in_place(", ".join(order), number, state, sheet)
    for what, rows in (("shortest", [SHORTEST] * MOST_STATES), ("longest", [LONGEST_ROW] * MOST_STATES)):
        sheet = loose_sheet(rows)
        for number, state in product((1, 2), (0, 31, 63, 64)):
            yield in_place(f"64 times the {what}", number, state, sheet)
    for number in (1, 2):
        yield in_place("the shortest alone", number, 0, loose_sheet([SHORTEST]))
        yield in_place("the longest alone", number, 0, loose_sheet([row(WIDE)]))


def forms():
    """Each number of ready sets with each number of offered actions."""
    for ready, actions in product(range(1, MOST_READY + 1), range(len(ACTIONS) + 1)):
        if ready <= 1 << actions:
            sheet = loose_sheet(placed(3, 1, row_of(ready, actions, 2)))
            number = 1 + (ready + actions) % 2
            yield in_place(f"{ready} ready sets, {actions} actions", number, 1, sheet)


def unions():
    """Actions in one ready set or several: each has one successor."""
    for masks in (
        [1, 2],
        [1, 2, 4, 8, 16, 32, 64, 128],
        [3, 5, 6],
        [0x80, 0x100, 0x180],
        [1, 0x2000],
        [0, 0x3FFF],
        [0x1FFF, 0x3FFE],
        [0x3FF8, 0x3FF9, 0x3FFA, 0x3FFB, 0x3FFC, 0x3FFD, 0x3FFE, 0x3FFF],
        [0x1555, 0x2AAA],
    ):
        sheet = loose_sheet([row(masks), row([1], [1]), row(masks)])
        for number, state in product((1, 2), (0, 1, 2)):
            yield in_place(f"masks {masks}", number, state, sheet)


def marked():
    """The success mark is no action: it has no successor."""
    every = [mask | SUCCESS for mask in WIDE]
    for masks in ([SUCCESS], [0, SUCCESS], [SUCCESS | 1], [1, SUCCESS | 1], [1, SUCCESS | 2], [SUCCESS | 0x3FFF], every):
        sheet = loose_sheet([row(masks), END_ROW, row(masks)], 7, CLIENT)
        for number, state in product((1, 2), (0, 1, 2)):
            yield in_place(f"masks {masks}", number, state, sheet)


def roles_and_names():
    """Either role in either place, over any names, the two alike or not."""
    for roles in product((SERVICE, CLIENT), repeat=2):
        for names in ((0, 0), (0, 7), (7, 0), (1, 2), (3, 3)):
            sheets = [
                loose_sheet([row_of(1, n, 1), row_of(2, n) if n else END_ROW], n, role) for n, role in zip(names, roles)
            ]
            for number, state in product((1, 2), (0, 1)):
                yield framed(f"roles {roles}, names {names}", number, state, *sheets)


def beginnings():
    """Rows that begin or end where a byte's worth of offsets does."""
    for begin in (224, 225, 226, 255, 256, 257, 511, 512, 513, 1023, 1024, 1025):
        longest = (begin - 9) // len(LONGEST_ROW)
        rest = begin - longest * len(LONGEST_ROW)
        sizes = rest // 3, rest // 3, rest - 2 * (rest // 3)
        before = [LONGEST_ROW] * longest + [row_of(1, size - 3) for size in sizes]
        sheet = loose_sheet([*before, LONGEST_ROW, END_ROW])
        for number in (1, 2):
            yield in_place(f"a row from {begin} on", number, len(before), sheet)


# Sheets that are broken


def named_broken():
    """Each fault of the sheet that is asked about, the other whole, broken or
    empty; the state may be the one at fault, one before it or behind it, or
    none of the sheet."""
    for number, role in ((1, SERVICE), (2, CLIENT)):
        for label, sheet in faults(role):
            for state, other in ((0, M1_OLD), (2, BROKEN), (255, b"")):
                yield in_place(label, number, state, sheet, other)


def broken_at_the_end():
    """The same at the end of a longest sheet."""
    for number, role in ((1, CLIENT), (2, SERVICE)):
        for label, sheet in farthest(role):
            yield in_place(label, number, 63, sheet)


def other_broken():
    """Each fault of the sheet that is not asked about, which is not tested."""
    for number, role in ((1, CLIENT), (2, SERVICE)):
        for label, sheet in faults(role):
            yield in_place(f"the other: {label}", number, 1, M1_NEW, sheet)


def edges():
    yield from sheet_numbers()
    yield from states()
    yield from every_state()
    yield from same_bytes()
    yield from lengths()
    yield from forms()
    yield from unions()
    yield from marked()
    yield from roles_and_names()
    yield from beginnings()
    yield from named_broken()
    yield from broken_at_the_end()
    yield from other_broken()
