"""Random sheets: whole ones, damaged ones, and ones written carelessly or left
untidy."""

from .actions import MOST_NAMES, allowed_mask
from .framing import Framed, number_bytes
from .random_contracts import Shape, random_contract
from .sheet_edges import loose_sheet, row
from .sheets import CLIENT, CLOSING, LONGEST, MOST_READY, MOST_STATES, SERVICE, TRAILER, offered, write_sheet


def whole_sheet(chance, states=(1, 2, 4, 8, 16), least=1):
    shape = Shape(
        chance.below(MOST_NAMES + 1),
        chance.pick(states),
        chance.pick([1, 2, 3, MOST_READY]),
        chance.pick([1, 2, 4, 14]),
        chance.pick([2, 4, 8]),
        least,
    )
    return write_sheet(random_contract(chance, shape, chance.pick([SERVICE, CLIENT])))


def changed(chance, sheet):
    """One byte changed; for one in three within the index or the trailer, and
    for one in three by a single bit."""
    at = chance.below(len(sheet))
    if chance.one_in(3):
        at = len(sheet) - 1 - chance.below(min(len(sheet), TRAILER + 2 * sheet[-4]))
    by = 1 << chance.below(8) if chance.one_in(3) else chance.between(1, 255)
    return sheet[:at] + bytes([sheet[at] ^ by]) + sheet[at + 1 :]


def shortened(chance, sheet):
    """Bytes taken out: at the front, at the back, or anywhere."""
    size = chance.between(1, 1 + len(sheet) // 4)
    at = chance.pick([0, len(sheet) - size, chance.below(len(sheet) - size + 1)])
    return sheet[:at] + sheet[at + size :]


def lengthened(chance, sheet):
    """Bytes put in: at the front, at the back, or anywhere."""
    at = chance.pick([0, len(sheet), chance.below(len(sheet) + 1)])
    return sheet[:at] + chance.data(chance.between(1, 5)) + sheet[at:]


def moved_index(chance, sheet):
    """Rows shortened or lengthened, the index still where the trailer says."""
    index = int.from_bytes(sheet[-6:-4], "little")
    rows, rest = sheet[:index], sheet[index:-6]
    rows = shortened(chance, rows) if chance.one_in(2) else lengthened(chance, rows)
    return rows + rest + number_bytes(len(rows)) + sheet[-4:]


def noise(chance):
    return chance.data(chance.below(60))


def noise_before_trailer(chance):
    """Random bytes with a trailer that is right, and often a right index."""
    count = chance.between(1, 4)
    body = bytes(chance.pick([0, 1, 1, 2, 3, chance.below(256)]) for _ in range(chance.below(40)))
    entries = b"\0\0" + bytes(chance.pick([0, 0, chance.below(40)]) for _ in range(2 * count - 2))
    trailer = bytes([count, chance.below(8), chance.below(2), CLOSING])
    return body + entries + number_bytes(len(body)) + trailer


def careless_row(chance, n, role, count, rarity):
    """A row in which each choice goes wrong once in `rarity` times."""

    def bits():
        usable = 0 if n == 0 else chance.number() & chance.number()
        usable &= ((1 << n) - 1) * 129
        if role == CLIENT and chance.one_in(4):
            usable |= 1 << 14
        return usable ^ (1 << chance.below(16) if chance.one_in(rarity) else 0)

    masks = sorted({bits() for _ in range(chance.pick([1, 1, 2, 3, 4, 8]))})
    if chance.one_in(rarity):
        masks.insert(chance.below(len(masks) + 1), chance.pick(masks))
    values = [chance.below(count) for _ in offered(masks)]
    if values and chance.one_in(rarity):
        values[chance.below(len(values))] = chance.between(count, 255)
    head = chance.pick([0, 9, 8, len(masks) + 1]) if chance.one_in(2 * rarity) else None
    return row(masks, values, head)


def careless_sheet(chance):
    count, n, role = chance.pick([1, 2, 3, 5, 9, 17]), chance.below(8), chance.below(2)
    rarity = chance.pick([4, 10, 40])
    rows = [careless_row(chance, n, role, count, rarity) for _ in range(count)]
    gap = chance.data(1) if chance.one_in(12) else b""
    return loose_sheet(rows, n, role, gap=gap)


def untidy_row(chance, n, role, count):
    """A row with up to two masks put in another's place, before it or instead
    of it, and up to two forbidden bits, these rather in later masks."""
    wanted = allowed_mask(n, role)
    forbidden = [bit for bit in range(16) if not wanted >> bit & 1]
    masks = sorted({chance.number() & wanted for _ in range(chance.between(2, MOST_READY))})
    for _ in range(chance.pick([0, 1, 2, 2])):
        moved = chance.pick(masks)
        if chance.one_in(2):
            masks.remove(moved)
            masks.insert(chance.below(len(masks) + 1), moved)
        else:
            masks[chance.below(len(masks))] = moved
    for _ in range(chance.pick([0, 1, 1, 2])):
        at = max(chance.below(len(masks)), chance.below(len(masks)))
        masks[at] |= 1 << chance.pick(forbidden)
    return row(masks, [chance.below(count) for _ in offered(masks)])


def untidy_sheet(chance):
    """A sheet with one or two untidy rows among short ones."""
    count, n, role = chance.pick([1, 2, 3, 5, 9]), chance.between(1, MOST_NAMES), chance.pick([SERVICE, CLIENT])
    rows = [row([0])] * count
    for _ in range(2):
        rows[chance.below(count)] = untidy_row(chance, n, role, count)
    return loose_sheet(rows, n, role)


def long_sheet(chance):
    """A sheet of 50 to 64 states."""
    return whole_sheet(chance, [50, 60, MOST_STATES], 50)


def too_long(chance):
    return chance.data(chance.between(LONGEST + 1, LONGEST + 40)) + b"\xc5"


def many(chance, kind, number, make):
    for i in range(number):
        yield Framed(f"{kind} {i}", make(chance))


def random_sheets(chance):
    yield from many(chance, "whole", 160, whole_sheet)
    yield from many(chance, "whole, long", 12, long_sheet)
    yield from many(chance, "a byte changed", 300, lambda c: changed(c, whole_sheet(c)))
    yield from many(chance, "a byte changed, long", 20, lambda c: changed(c, long_sheet(c)))
    yield from many(chance, "shortened", 60, lambda c: shortened(c, whole_sheet(c)))
    yield from many(chance, "lengthened", 60, lambda c: lengthened(c, whole_sheet(c)))
    yield from many(chance, "index moved", 100, lambda c: moved_index(c, whole_sheet(c)))
    yield from many(chance, "noise", 60, noise)
    yield from many(chance, "too long", 5, too_long)
    yield from many(chance, "noise before a trailer", 100, noise_before_trailer)
    yield from many(chance, "careless", 400, careless_sheet)
    yield from many(chance, "untidy", 120, untidy_sheet)
