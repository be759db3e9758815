"""Choosing sheets at every edge of their form, made from loose parts so that
any of them can be wrong (refusal 17)."""

from .actions import SUCCESS, actions_of
from .choosing import CLOSING, HIDING, MOST_ROWS, OPEN
from .framing import Framed, number_bytes
from .sheet_edges import loose_sheet, placed
from .sheets import TRAILER

END_ROW = bytes([OPEN, 0, 0])

#: Number of rows and place of the odd one: first, last, and between.
PLACES = [(1, 0), (2, 0), (2, 1), (3, 1), (32, 0), (32, 31)]


def loose_choosing(rows, n=7, closing=CLOSING, **parts):
    """A choosing sheet of any rows, the parts as for a loose sheet."""
    return loose_sheet(rows, n, closing=closing, **parts)


def listed(rows, count=None):
    """Rows behind their count, or behind another."""
    return bytes([len(rows) if count is None else count, *rows])


def hides(*rows, count=None):
    return bytes([HIDING]) + listed(rows, count)


def opens(mask, *lists):
    """An open row of any mask; lists are rows behind their count, and each
    action without one leads to row 0."""
    missing = len(actions_of(mask)) - len(lists)
    return bytes([OPEN]) + number_bytes(mask) + b"".join(lists) + listed([0]) * missing


#: All actions, eight successors each: a longest row.
WIDE = opens(0x3FFF, *[listed(range(24, 32))] * 14)


def lengths():
    small = loose_choosing([hides(1, 2), opens(1, listed([0, 2])), END_ROW], 1)
    for length in range(len(small)):
        yield Framed(f"first {length} bytes", small[:length])
        yield Framed(f"last {length} bytes", small[len(small) - length :])
    for length in (0, 1, 5, 6, 7, 8):
        for byte in (0, CLOSING, 255):
            yield Framed(f"{length} times {byte}", bytes([byte]) * length)
    longest = loose_choosing([WIDE] * MOST_ROWS)
    yield Framed("4,198 bytes", longest)
    yield Framed("4,198 bytes, last successor wrong", loose_choosing([WIDE] * 31 + [WIDE[:-1] + b"\x20"]))
    yield Framed("4,198 bytes, last count wrong", loose_choosing([WIDE] * 31 + [WIDE[:-9] + b"\x07" + WIDE[-8:]]))
    yield Framed("4,199 bytes, one in front", b"\0" + longest)
    yield Framed("4,199 bytes, one behind", longest + b"\xc6")
    yield Framed("4,199 bytes, one left over", loose_choosing([WIDE] * MOST_ROWS, gap=b"\0"))
    yield Framed("8,192 zeros", bytes(8192))


def trailers():
    for count in (1, 2, 31, 32, 33, 34, 63, 64, 65, 128, 255):
        yield Framed(f"{count} rows", loose_choosing([END_ROW] * count))
    for count in (0, 2, 31, 33, 255):
        yield Framed(f"{count} rows by the trailer alone", loose_choosing([END_ROW], count=count))
    yield Framed("no rows, nothing else", loose_choosing([]))
    yield Framed("no rows, a row", loose_choosing([], gap=END_ROW))
    for n in (*range(10), 127, 128, 255):
        for role in (0, 1, 2, 128, 255):
            yield Framed(f"n {n}, role {role}", loose_choosing([END_ROW], n, role=role))
    for closing in (0, 0x46, 0xC2, 0xC4, 0xC5, 0xC7, 0xD6, 0xFF):
        yield Framed(f"closing byte {closing}", loose_choosing([END_ROW], closing=closing))
    yield Framed("an ordinary sheet", loose_sheet([bytes([1, 0, 0])], 7))


def indexes():
    for count in (1, 2, 32):
        rows, true = [END_ROW] * count, 3 * count
        for index in (0, true - 1, true + 1, true ^ 256, true ^ 0x8000, true + 2 * count, 65535):
            yield Framed(f"{count} rows, index offset {index}", loose_choosing(rows, index=index))
    for count, sizes in ((1, (6, 7)), (2, (6, 7, 8, 9)), (32, (6, 7, 8, 69))):
        for length in sizes:
            index = (length - 2 * count - TRAILER) % 65536
            trailer = number_bytes(index) + bytes([count, 7, 0, CLOSING])
            yield Framed(f"index offset {index} wraps to length {length}", bytes(length - TRAILER) + trailer)


def entries():
    for count, at in PLACES:
        rows, true, end = [END_ROW] * count, 3 * at, 3 * count
        for entry in sorted({true + 1, true + 3, true ^ 256, true ^ 0x8000, max(true - 1, 1), end, end + 1, 65535}):
            yield Framed(f"{count} rows, entry {at} is {entry}", loose_choosing(rows, entries={at: entry}))
        if at > 0:
            yield Framed(f"{count} rows, entry {at} is the start", loose_choosing(rows, entries={at: 0}))
        shifted = placed(count, at, b"\0" + END_ROW, END_ROW)
        named = {row: 3 * row + (row >= at) for row in range(count)}
        yield Framed(f"{count} rows, gap before row {at}", loose_choosing(shifted, entries=named))
    yield Framed("rows in the other order", loose_choosing([END_ROW, END_ROW], entries={0: 3, 1: 0}))
    yield Framed("two entries for one row", loose_choosing([END_ROW, b""], entries={1: 0}))
    for at in (2, 3, 30):
        low = {at: len(WIDE) * at ^ 256}
        yield Framed(f"entry {at} right in its low byte", loose_choosing([WIDE] * MOST_ROWS, entries=low))


def missing():
    """Rows cut off at each of their bytes, the index directly behind."""
    for odd, kind in ((hides(*range(8)), "hiding"), (opens(0x2009, listed([0, 1]), listed([1]), listed([0, 2])), "open")):
        for count, at in ((9, 0), (9, 8), (32, 31)):
            for cut in range(len(odd)):
                rows = [END_ROW] * at + [odd[:cut]]
                yield Framed(f"{kind} row {at} of {count} cut to {cut}", loose_choosing(rows, count=count))
    yield Framed("32 rows, none there", loose_choosing([], count=32))
    yield Framed("32 rows, 31 there", loose_choosing([END_ROW] * 31, count=32))
    yield Framed("32 wide rows, a byte short", loose_choosing([WIDE] * 31 + [WIDE[:-1]]))


def first_bytes():
    for count, at in PLACES:
        for byte in (2, 3, 128, 129, 255):
            yield Framed(f"first byte {byte}, row {at} of {count}", loose_choosing(placed(count, at, bytes([byte, 0, 0]), END_ROW)))
    yield Framed("first byte 2 before internal moves", loose_choosing([b"\2" + listed([1]), END_ROW]))


def lists(rows):
    """The same rows under a count in each kind of place, among 32 rows."""
    for at in (0, 31):
        for kind, odd in (
            ("internal moves", bytes([HIDING]) + rows),
            ("the first action", opens(0x2081, rows)),
            ("the last action", opens(0x2081, listed([0]), listed([30, 31]), rows)),
        ):
            yield f"{kind}, row {at}", loose_choosing(placed(32, at, odd, END_ROW))


#: Eight rows that can stand under one count, none of them the first or last.
EIGHT = [2, 3, 5, 8, 13, 21, 24, 30]


def counts():
    for count in (0, 1, 2, 7, 8, 9, 10, 16, 29):
        for label, sheet in lists(listed(range(1, count + 1))):
            yield Framed(f"{count} rows, {label}", sheet)
    for said in (0, 1, 7, 9, 128, 136, 255):
        for label, sheet in lists(listed(EIGHT, said)):
            yield Framed(f"8 rows said to be {said}, {label}", sheet)


def orders():
    for place in (1, 4, 7):
        for what, row in (("the same", EIGHT[place - 1]), ("one less", EIGHT[place - 1] - 1), ("row 0", 0)):
            odd = EIGHT[:place] + [row] + EIGHT[place + 1 :]
            for label, sheet in lists(listed(odd)):
                yield Framed(f"place {place} {what}, {label}", sheet)
    for odd in ([2, 2], [2, 1], [1, 0], [1, 3, 2], EIGHT[::-1]):
        for label, sheet in lists(listed(odd)):
            yield Framed(f"rows {odd}, {label}", sheet)
    falling = opens(3, listed([1]), listed([0]))
    yield Framed("falling from one count to the next", loose_choosing([falling, END_ROW]))


def ranges():
    for count, at in PLACES:
        for row in sorted({count - 1, count, count + 1, 31, 32, 128, 255}):
            for kind, odd in (("move", hides(row)), ("successor", opens(1, listed([row])))):
                yield Framed(f"{kind} {row} in row {at} of {count}", loose_choosing(placed(count, at, odd, END_ROW)))
    for row in (31, 32, 33, 255):
        for label, sheet in lists(listed([*EIGHT[:7], row])):
            yield Framed(f"last of eight rows is {row}, {label}", sheet)
    yield Framed("rows 0 and 1 of one", loose_choosing([hides(0, 1)]))


def bits():
    for n in range(8):
        for bit in range(16):
            yield Framed(f"bit {bit}, n {n}", loose_choosing([END_ROW, opens(1 << bit)], n))
        beyond = 1 << n | 1 << n + 7
        for mask in (((1 << n) - 1) * 129, ((1 << n) - 1) * 129 | beyond & 0x3FFF):
            yield Framed(f"mask {mask}, n {n}", loose_choosing([opens(mask)], n))
    for count, at in PLACES:
        for mask in (SUCCESS, 0x8000, 0xC000, 0x3FFF | SUCCESS, 0xBFFF):
            yield Framed(f"mask {mask} in row {at} of {count}", loose_choosing(placed(count, at, opens(mask), END_ROW)))
    yield Framed("a successor for bit 14", loose_choosing([bytes([OPEN, 0, 0x40]) + listed([0])]))


def gaps():
    for count in (1, 2, 32):
        for size in (1, 2, 3, 256):
            yield Framed(f"{size} bytes behind {count} rows", loose_choosing([END_ROW] * count, gap=bytes(size)))
        yield Framed(f"a row too many behind {count}", loose_choosing([END_ROW] * count, gap=END_ROW))
    yield Framed("a successor too many", loose_choosing([opens(1, listed([0]), listed([0]))]))
    yield Framed("a move too many", loose_choosing([hides(1) + b"\1", END_ROW]))


def edges():
    for group in (lengths, trailers, indexes, entries, missing, first_bytes, counts, orders, ranges, bits, gaps):
        yield from group()
