"""Choosing sheets of the right form at the limits of what can be converted:
circles, 64 states, 8 ready sets (refusals 18 to 20), one behind another."""

from .choosing import CLOSING, Choosing, hiding, open_row, write_choosing
from .choosing_dense import dense
from .choosing_edges import END_ROW, hides, loose_choosing, opens
from .framing import Framed

END = open_row()
A, B, C = 0, 1, 2


def framed(label, rows, n=7):
    return Framed(label, write_choosing(Choosing(n, tuple(rows))))


def then(row):
    """An open row that goes on by a."""
    return open_row({A: [row]})


# Circles of internal moves, and what is none


def chain(order):
    """Hiding rows, each leading to the next in an order of all rows; the last
    is the end."""
    rows = [END] * len(order)
    for row, after in zip(order, order[1:]):
        rows[row] = hiding(after)
    return rows


def circles():
    for count in (1, 2, 3, 31, 32):
        ring = [hiding((row + 1) % count) for row in range(count)]
        yield framed(f"circle of {count}", ring)
        yield framed(f"circle of {count} the other way", [hiding((row - 1) % count) for row in range(count)])
        if count < 32:
            later = [hiding((row + 1) % count + 1) for row in range(count)]
            yield framed(f"circle of {count}, not reached", [END, *later])
            yield framed(f"circle of {count}, reached by an action", [then(1), *later])
            yield framed(f"circle of {count}, reached by a move", [hiding(1), *later])
    for at in (0, 1, 30, 31):
        rows = [END] * 32
        rows[at] = hiding(at)
        yield framed(f"row {at} of 32 leads to itself", rows)
        rows[at] = hiding(2, 5, 9, 12, 20, 25, 29, at)
        yield framed(f"row {at} of 32 leads to others and itself", rows)
    for back in (0, 15, 30):
        rows = chain(range(32))
        rows[31] = hiding(back)
        yield framed(f"a chain of 31 back to row {back}", rows)
    for first, second in ((1, 2), (2, 1)):
        rows = [hiding(1, 2), END, END]
        rows[first] = hiding(0)
        rows[second] = END
        yield framed(f"back from row {first}, the other an end", rows)
    yield framed("two circles", [hiding(1), hiding(0), hiding(3), hiding(2)])
    yield framed("a circle behind the last of eight moves", [hiding(*range(1, 9)), *[END] * 7, hiding(9), hiding(8)])


def no_circles():
    yield framed("a chain of 31", chain(range(32)))
    yield framed("a chain of 31 from the last row", chain([0, *range(31, 0, -1)]))
    yield framed("two ways to one row", [hiding(1, 2), hiding(3), hiding(3), END])
    ways = [hiding(*range(row + 1, min(row + 9, 32))) for row in range(31)]
    yield framed("more ways than can be gone", [*ways, END])
    yield framed("more ways than can be gone, and a circle", [*ways, hiding(0)])
    turned = [END, *(hiding(*range(max(row - 8, 0), row)) for row in range(1, 32))]
    yield framed("more ways than can be gone, downwards", turned)
    yield framed("a circle of actions", [then(1), then(0)])
    yield framed("a circle of a move and an action", [hiding(1), then(0)])
    yield framed("an action back to its own row", [then(0)])


# States


def last_letters(size):
    """A set tells which of the last letters were a: as many states as there
    are subsets of so many rows."""
    rows = [open_row({A: [0, 1], B: [0]})]
    rows += [open_row({A: [row + 1], B: [row + 1]}) for row in range(1, size)]
    return [*rows, END]


def rings(size, extra=None):
    """So many rows in a ring, then pairs of neighbours in a ring, which the
    last row begins.  `extra` maps rows to what they offer besides."""
    rows = []
    for row in range(size):
        successors = {A: [(row + 1) % size]}
        if row == size - 1:
            successors[B] = [0, 1]
        rows.append(open_row(successors | (extra or {}).get(row, {})))
    return rows


#: Only the pair of first and last row, the last state, leads to a new state.
LATE = {0: {C: [0]}, 31: {C: [30]}}


def rings_and_more(count):
    """Rings of 31, which have 62 states, and so many states more: sets with
    the end, behind actions of one row."""
    more = {2 + place: [31] if place == 0 else [place, 31] for place in range(count)}
    return [*rings(31, {5: more}), END]


def states():
    for size in (1, 5, 6, 7, 12, 31):
        yield framed(f"2 to the power {size} states", last_letters(size))
    for size in (2, 3, 31, 32):
        yield framed(f"rings of {size}", rings(size))
    for count in range(5):
        yield framed(f"{62 + count} states", rings_and_more(count))
    yield framed("the 65th state behind the last", rings(32, LATE))
    yield framed("no 65th state behind the last", rings(32, {0: {C: [0]}, 31: {C: [1]}}))
    for row in (0, 15, 30, 31):
        yield framed(f"rings of 32, and a state more behind row {row}", rings(32, {row: {C: [2, 9]}}))
        yield framed(f"rings of 32, and no state more behind row {row}", rings(32, {row: {C: [2]}}))
    six = last_letters(6)
    for row in range(7):
        for after, what in ((6, "one more"), (0, "none more")):
            more = list(six)
            more[row] = open_row({**six[row].successors, C: [after]})
            yield framed(f"64 states, and {what} behind row {row}", more)
    fans = [open_row({action: {(3 * row + action) % 32, (row + 5 * action + 7) % 32} for action in range(14)}) for row in range(32)]
    yield framed("the 65th state early", fans)
    yield framed("64 dense states", dense(late=False).rows)
    yield framed("64 dense states and one behind the last", dense(late=True).rows)


# Ready sets


def choice(masks, first=0):
    """Hiding rows that lead to an open row for each mask, and these rows; the
    first hiding row stands at place `first`."""
    masks = list(masks)
    heads = (len(masks) + 6) // 7 if len(masks) > 8 else 1
    rows = []
    for head in range(heads):
        ends = range(first + heads + 7 * head, first + heads + len(masks))
        moves = ends if heads == 1 else [*ends[:7], *([first + head + 1] if head + 1 < heads else [])]
        rows.append(hiding(*moves))
    return rows + [open_row({action: [0] for action in range(14) if mask >> action & 1}) for mask in masks]


def ready_sets():
    for count in (1, 2, 7, 8, 9, 10, 16, 20):
        yield framed(f"{count} ready sets at the start", choice(range(count)))
        yield framed(f"{count} ready sets, not the empty one", choice(range(1, count + 1)))
        yield framed(f"{count} ready sets behind an action", [then(1), *choice(range(count), 1)])
        yield framed(f"{count} ready sets, not reached", [END, *choice(range(count), 1)])
        yield framed(f"{count} rows with one ready set", choice([5] * count))
        yield framed(f"{count} rows with two ready sets", choice([5, 3] * (count // 2)) if count > 1 else choice([5]))
        falling = choice([1 << action for action in range(13, 13 - min(count, 14), -1)])
        yield framed(f"{min(count, 14)} ready sets, falling by row", falling)
    eight = [open_row({action: [0]}) for action in range(9)]
    yield framed("8 rows behind an action", [open_row({A: range(1, 9)}), *eight[:8]])
    yield framed("8 rows and a move behind an action", [open_row({A: range(1, 9)}), hiding(9), *eight[1:8], eight[8]])
    yield framed("8 rows and a move to the same", [open_row({A: range(1, 9)}), hiding(8), *eight[1:8]])
    yield framed("9 rows behind one action of two rows", [hiding(1, 2), open_row({A: range(3, 8)}), open_row({A: range(8, 12)}), *eight])


# Two states though the ready sets and all that follows are the same


def kept_apart():
    last = open_row({C: [3]})
    yield framed("a move and what it leads to", [open_row({A: [1], B: [2]}), hiding(2), last, END])
    yield framed("a move with and without what it leads to", [open_row({A: [1], B: [1, 2]}), hiding(2), last, END])
    yield framed("three sets, one closure", [open_row({A: [1], B: [2], C: [1, 2]}), hiding(2), open_row({C: [3]}), END])
    yield framed("the start and what it moves to", [hiding(1), open_row({A: [0], B: [1], C: [0, 1]})])
    yield framed("two ends", [open_row({A: [1], B: [2], C: [1, 2]}), END, END])
    yield framed("equal rows", [open_row({A: [1], B: [2]}), then(1), then(2)])
    yield framed("three chains, one end", [open_row({A: [1], B: [2], C: [3]}), hiding(2), hiding(3), hiding(4), END])


def numbering():
    """Breadth first, by ascending action, whatever the order of rows."""
    yield framed("falling rows", [open_row({A: [5], B: [4], C: [3]}), then(0), then(1), then(2), then(1), then(2)])
    for n in (1, 3, 7):
        usable = [action for action in range(14) if action % 7 < n]
        fan = open_row({action: [1 + len(usable) - place] for place, action in enumerate(usable, 1)})
        yield framed(f"all actions over {n} names", [fan, *(then(0) for _ in usable)], n)
    yield framed("found again later", [open_row({A: [1], B: [2]}), open_row({A: [2], B: [3]}), open_row({A: [3], B: [1]}), then(0)])
    yield framed("a set found through two rows", [hiding(1, 2), open_row({A: [1, 3]}), open_row({A: [2, 3], B: [3]}), then(3)])


# One refusal behind another

BAD_FORM = hides(0, 0)


def faulty(rows, odd, place):
    """The bytes of rows with one more before or behind them."""
    return loose_choosing([odd, *rows] if place == 0 else [*rows, odd])


def crowded(size, count):
    """The last letters, of which the last is a choice among so many ready
    sets; it offers nothing that would lead to a state more."""
    rows = last_letters(size)
    return rows[:-1] + choice(range(count), size)


def crowded_last(one, other):
    """Rings whose first and last rows choose among so many ready sets, which
    come together in the last state alone."""
    size, rows = 20, rings(20)
    for place, masks in ((0, range(3, 3 + one)), (size - 1, range(8, 8 + other))):
        first = len(rows)
        for mask in masks:
            also = {action: [5] for action in range(3, 14) if mask >> action - 3 & 1}
            rows.append(open_row({**rows[place].successors, **also}))
        rows[place] = hiding(*range(first, len(rows)))
    return rows


def started(rows, count):
    """The rows, reached by c from a start with so many ready sets."""
    start = choice(range(8, 8 + 8 * count, 8))
    begin = [row if row.hides() else open_row({C: [len(start)], **row.successors}) for row in start]
    moved = [{action: [row + len(start) for row in after] for action, after in one.successors.items()} for one in rows]
    return begin + [open_row(successors) for successors in moved]


def orders_of_faults():
    circle = [hides(1), hides(0)]
    for place in (0, 1):
        yield Framed(f"circle and form, {place}", faulty(circle, BAD_FORM, place))
        yield Framed(f"circle and bits, {place}", faulty(circle, opens(0x8000), place))
        yield Framed(f"circle and closing byte, {place}", faulty(circle, END_ROW, place)[:-1] + b"\0")
    yield Framed("circle and gap", loose_choosing(circle, gap=b"\0"))
    yield Framed("circle and role 1", loose_choosing(circle, role=1))
    yield Framed("circle and n 8", loose_choosing(circle, 8))
    many = last_letters(7)
    yield framed("128 states and a circle not reached", [*many, hiding(8)])
    yield framed("128 states and a circle reached", [open_row({**many[0].successors, C: [8]}), *many[1:], hiding(8)])
    nine = choice(range(9))
    yield framed("9 ready sets and a circle not reached", [*nine, hiding(len(nine))])
    for count in (8, 9):
        yield framed(f"64 states, {count} ready sets in the last 32", crowded(6, count))
        yield framed(f"128 states, {count} ready sets in the last 64", crowded(7, count))
        yield framed(f"128 states, {count} ready sets at the start", started(last_letters(7), count))
        yield framed(f"33 states, {count} ready sets at the start", started(last_letters(5), count))
        yield framed(f"{count} ready sets in the last state", crowded_last(4, count - 4))
    bad = [hides(1, 2), hides(3, 4), opens(0x8000), END_ROW, END_ROW]
    yield Framed("two choices and bits", loose_choosing(bad))
    yield Framed("9 ready sets and form", faulty([opens(1 << action) for action in range(9)], hides(*range(9)), 1))


def limits():
    for group in (circles, no_circles, states, ready_sets, kept_apart, numbering, orders_of_faults):
        yield from group()
