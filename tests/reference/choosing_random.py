"""Random choosing sheets: whole ones, damaged ones, and ones written
carelessly."""

from typing import NamedTuple

from .actions import ACTIONS, MOST_NAMES, name_of
from .choosing import HIDING, MOST_ROWS, MOST_UNDER, OPEN, Choosing, hiding, open_row, write_choosing
from .choosing_edges import loose_choosing
from .framing import number_bytes
from .sheet_random import changed, lengthened, moved_index, shortened


class Shape(NamedTuple):
    """How large a random choosing sheet gets: at most so many rows (at least
    `least`), rows under one count and actions in a row; one row in `hides` is
    hiding, and one open row in `ends` is the end."""

    n: int
    rows: int
    under: int = 2
    actions: int = 2
    hides: int = 3
    ends: int = 4
    least: int = 1


def some_of(chance, rows, most):
    """One to so many of the rows."""
    return sorted({chance.pick(rows) for _ in range(chance.between(1, most))})


def shuffled(chance, count):
    order = list(range(count))
    for last in range(count - 1, 0, -1):
        other = chance.below(last + 1)
        order[last], order[other] = order[other], order[last]
    return order


def random_open(chance, shape, count):
    usable = [action for action in ACTIONS if name_of(action) < shape.n]
    if not usable or chance.one_in(shape.ends):
        return open_row()
    offered = some_of(chance, usable, shape.actions)
    return open_row({action: some_of(chance, range(count), shape.under) for action in offered})


def random_choosing(chance, shape, circles=False):
    """Internal moves lead on in a random order of the rows, so that there is
    no circle; or, with circles, anywhere."""
    count = chance.between(shape.least, shape.rows)
    rank, rows = shuffled(chance, count), []
    for place in range(count):
        further = [row for row in range(count) if circles or rank[row] > rank[place]]
        if further and chance.one_in(shape.hides):
            rows.append(hiding(*some_of(chance, further, shape.under)))
        else:
            rows.append(random_open(chance, shape, count))
    return Choosing(shape.n, tuple(rows))


def small_shape(chance):
    return Shape(
        chance.pick([0, 1, 1, 2, 2, 3, MOST_NAMES]),
        chance.pick([1, 2, 3, 4, 6, 8]),
        chance.pick([1, 2, 3, MOST_UNDER]),
        chance.pick([1, 2, 3, 14]),
        chance.pick([2, 3, 5]),
        chance.pick([2, 4, 8]),
    )


def large_shape(chance):
    """As many rows as may be: many states, or few because sets grow whole."""
    return Shape(chance.between(1, MOST_NAMES), MOST_ROWS, chance.pick([1, 2, MOST_UNDER]), chance.pick([1, 2, 4]), 4, 8, 12)


def whole(chance):
    return write_choosing(random_choosing(chance, small_shape(chance)))


def whole_large(chance):
    return write_choosing(random_choosing(chance, large_shape(chance)))


def with_circles(chance):
    return write_choosing(random_choosing(chance, small_shape(chance)._replace(hides=2), circles=True))


DAMAGES = (changed, changed, changed, shortened, lengthened, moved_index)


def damaged(chance):
    """A whole sheet that was changed, shortened or lengthened."""
    return chance.pick(DAMAGES)(chance, whole(chance))


def careless_list(chance, count, rarity):
    """Rows behind their count, where each choice goes wrong once in `rarity`
    times."""
    rows = some_of(chance, range(count), chance.pick([1, 2, 3, MOST_UNDER]))[:MOST_UNDER]
    if chance.one_in(rarity):
        rows[chance.below(len(rows))] = chance.pick([count, chance.below(count), 255])
    size = chance.pick([0, len(rows) + 1, 9]) if chance.one_in(2 * rarity) else len(rows)
    return bytes([size, *rows])


def careless_row(chance, n, count, rarity):
    if chance.one_in(3):
        head = chance.pick([2, 255]) if chance.one_in(2 * rarity) else HIDING
        return bytes([head]) + careless_list(chance, count, rarity)
    mask = chance.number() & chance.number() & ((1 << n) - 1) * 129
    if chance.one_in(rarity):
        mask ^= 1 << chance.below(16)
    lists = (careless_list(chance, count, rarity) for _ in range((mask & 0x3FFF).bit_count()))
    return bytes([OPEN]) + number_bytes(mask) + b"".join(lists)


def careless(chance):
    count, n, rarity = chance.pick([1, 2, 3, 5, 9]), chance.below(8), chance.pick([6, 15, 40])
    rows = [careless_row(chance, n, count, rarity) for _ in range(count)]
    return loose_choosing(rows, n, gap=chance.data(1) if chance.one_in(12) else b"")


def noise_before_trailer(chance):
    """Random small bytes with a trailer that is right, and often a right index."""
    count = chance.between(1, 3)
    body = bytes(chance.pick([0, 1, 1, 1, 2, 0, chance.below(256)]) for _ in range(chance.below(24)))
    entries = {row: chance.below(24) for row in range(1, count)}
    return loose_choosing([body] + [b""] * (count - 1), chance.below(8), entries=entries)
