"""Sheets at every edge that document 01 names, made from loose parts so that
any of them can be wrong."""

from .actions import ACTIONS, SUCCESS, mask_of, name_of
from .framing import Framed, number_bytes
from .sheets import CLIENT, CLOSING, LONGEST, SERVICE, TRAILER, offered

END_ROW = bytes([1, 0, 0])

#: Eight ready sets and fourteen offered actions: a longest row's masks.
WIDE = [mask_of(*range(least, 14)) for least in (13, 11, 9, 7, 5, 3, 1, 0)]


def row(masks, successors=None, count=None):
    """A row of any masks, the successors all 0 unless given."""
    if successors is None:
        successors = [0] * len(offered(masks))
    head = len(masks) if count is None else count
    return bytes([head]) + b"".join(number_bytes(mask) for mask in masks) + bytes(successors)


def loose_sheet(rows, n=7, role=SERVICE, count=None, index=None, entries=None, closing=CLOSING, gap=b""):
    """A sheet of any rows; `entries` maps states to other index entries, and
    `count`, `index` and `closing` stand in the trailer whatever is true."""
    body, listed = b"", b""
    count = len(rows) if count is None else count
    for state in range(max(count, len(rows))):
        entry = (entries or {}).get(state, len(body))
        listed += number_bytes(entry)
        body += rows[state] if state < len(rows) else b""
    body += gap
    listed = listed[: 2 * count]
    at = len(body) if index is None else index
    return body + listed + number_bytes(at) + bytes([count, n, role, closing])


def placed(states, at, odd, rest=END_ROW):
    """Rows of which the one of state `at` is odd."""
    return [odd if state == at else rest for state in range(states)]


#: Number of states and place of the odd one: first, last, and between.
PLACES = [(1, 0), (2, 0), (2, 1), (3, 1), (64, 0), (64, 63)]


def longest_sheet():
    return loose_sheet([row(WIDE, [63] * 14)] * 64)


def lengths():
    whole = loose_sheet([row([1], [1]), END_ROW], 1)
    for length in range(len(whole)):
        yield Framed(f"first {length} bytes of a sheet", whole[:length])
    for length in range(len(whole)):
        yield Framed(f"last {length} bytes of a sheet", whole[-length:] if length else b"")
    for length in (0, 1, 5, 6, 7, 8):
        for byte in (0, CLOSING, 255):
            yield Framed(f"{length} times {byte}", bytes([byte]) * length)
    longest = longest_sheet()
    yield Framed("2,118 bytes", longest)
    yield Framed("2,118 bytes, closing byte wrong", longest[:-1] + b"\0")
    yield Framed("2,118 bytes, last successor wrong", loose_sheet([row(WIDE, [63] * 14)] * 63 + [row(WIDE, [63] * 13 + [64])]))
    yield Framed("2,119 bytes, one in front", b"\0" + longest)
    yield Framed("2,119 bytes, one behind", longest + b"\xc5")
    yield Framed("2,119 bytes, one left over", loose_sheet([row(WIDE)] * 64, gap=b"\0"))
    yield Framed("2,119 bytes, trailer wrong", loose_sheet([row(WIDE)] * 64, gap=b"\0", closing=0))
    yield Framed("2,118 bytes, the rest left over", loose_sheet([END_ROW], gap=bytes(LONGEST - TRAILER - 2 - 3)))
    yield Framed("2,119 bytes, the rest left over", loose_sheet([END_ROW], gap=bytes(LONGEST - TRAILER - 2 - 2)))
    yield Framed("2,118 zeros", bytes(LONGEST))
    yield Framed("8,192 bytes", bytes(8192 - len(longest)) + longest)


def trailers():
    for count in (1, 2, 63, 64, 65, 66, 127, 128, 129, 255):
        yield Framed(f"{count} states", loose_sheet([END_ROW] * count))
    for count in (0, 65, 255):
        yield Framed(f"{count} states by the trailer alone", loose_sheet([END_ROW], count=count))
    yield Framed("no states, nothing else", loose_sheet([]))
    yield Framed("no states, a row", loose_sheet([], gap=END_ROW))
    for n in (*range(10), 127, 128, 255):
        for role in (0, 1, 2, 3, 128, 255):
            yield Framed(f"n {n}, role {role}", loose_sheet([END_ROW], n, role))
    for closing in (0, 0x45, 0xC1, 0xC4, 0xC6, 0xC7, 0xD5, 0xFF):
        for role in (SERVICE, CLIENT):
            yield Framed(f"closing byte {closing}", loose_sheet([END_ROW], 7, role, closing=closing))
    yield Framed("trailer and index wrong", loose_sheet([END_ROW], 8, index=9))
    yield Framed("trailer, index and row wrong", loose_sheet([b"\0"], 8, index=9))


def indexes():
    for states in (1, 2, 64):
        rows = [END_ROW] * states
        true = 3 * states
        for index in (0, true - 1, true + 1, true ^ 256, true ^ 0x8000, true + 2 * states, 65535):
            yield Framed(f"{states} states, index offset {index}", loose_sheet(rows, index=index))
    for count, lengths_ in ((1, (6, 7)), (2, (6, 7, 8, 9)), (64, (6, 7, 8, 69, 70, 132, 133))):
        for length in lengths_:
            index = (length - 2 * count - TRAILER) % 65536
            trailer = number_bytes(index) + bytes([count, 7, 0, CLOSING])
            front = bytes(length - TRAILER)
            yield Framed(f"index offset {index} wraps to length {length}", front + trailer)
    yield Framed("index offset and row wrong", loose_sheet([b"\0"], index=2))


def entries():
    for states, at in PLACES:
        rows, true = [END_ROW] * states, 3 * at
        end = 3 * states
        for entry in sorted({true + 1, true + 3, true ^ 256, true ^ 0x8000, max(true - 1, 1), max(true - 3, 2), end, end + 1, 65535}):
            label = f"{states} states, entry {at} is {entry}"
            yield Framed(label, loose_sheet(rows, entries={at: entry}))
        if at > 0:
            yield Framed(f"{states} states, entry {at} is the start", loose_sheet(rows, entries={at: 0}))
        shifted = [b"\0" + END_ROW if state == at else END_ROW for state in range(states)]
        named = {state: 3 * state + (state >= at) for state in range(states)}
        yield Framed(f"{states} states, gap before row {at}", loose_sheet(shifted, entries=named))
    yield Framed("two states with one row", loose_sheet([END_ROW, b""], entries={1: 0}))
    yield Framed("rows in the other order", loose_sheet([END_ROW, END_ROW], entries={0: 3, 1: 0}))
    rows = [row(WIDE)] * 20
    for at, entry in ((8, 8 * 31 ^ 256), (9, 9 * 31 ^ 256), (17, 17 * 31 ^ 512), (19, 19 * 31 & 255)):
        yield Framed(f"entry {at} right in its low byte", loose_sheet(rows, entries={at: entry}))


def missing():
    """Rows cut off at each of their bytes, the index directly behind."""
    wide, one = row(WIDE), row([mask_of(3), mask_of(3, 10)])
    for odd, kind in ((wide, "wide"), (one, "narrow")):
        for states, at in PLACES:
            if states == 64 and at == 0:
                continue
            cuts = range(len(odd)) if (states, at) in ((1, 0), (64, 63)) else (0, 1, 2, len(odd) // 2, len(odd) - 1)
            for cut in cuts:
                rows = [END_ROW] * at + [odd[:cut]]
                label = f"{kind} row {at} of {states} cut to {cut}"
                yield Framed(label, loose_sheet(rows, count=states))
    yield Framed("64 states, no rows", loose_sheet([], count=64))
    yield Framed("64 states, one row", loose_sheet([wide], count=64))
    yield Framed("64 states, 63 rows", loose_sheet([wide] * 63, count=64))
    yield Framed("64 wide states, a byte short", loose_sheet([wide] * 63 + [wide[:-1]]))


def counts():
    for states, at in PLACES:
        for count in (0, 9, 10, 127, 128, 254, 255):
            rows = placed(states, at, row([0], count=count))
            yield Framed(f"{states} states, {count} ready sets in {at}", loose_sheet(rows))
    for count in range(1, 14):
        masks = [mask_of(action) for action in range(count)]
        yield Framed(f"{count} ready sets there", loose_sheet([row(masks)]))
        yield Framed(f"{count} ready sets there, in the last state", loose_sheet([END_ROW, row(masks)]))
    yield Framed("256 ready sets, count 0", loose_sheet([b"\0" + b"".join(number_bytes(i) for i in range(256))]))


def orders():
    def framed(label, masks, states, at):
        return Framed(f"{label}, state {at} of {states}", loose_sheet(placed(states, at, row(masks))))

    for states, at in PLACES:
        for place in (1, 4, 7) if states == 64 else range(1, 8):
            same = WIDE[:place] + [WIDE[place - 1]] + WIDE[place + 1 :]
            less = WIDE[:place] + [WIDE[place - 1] - 1] + WIDE[place + 1 :]
            none = WIDE[:place] + [0] + WIDE[place + 1 :]
            yield framed(f"mask {place} the same", same, states, at)
            yield framed(f"mask {place} one less", less, states, at)
            yield framed(f"mask {place} zero", none, states, at)
    for first, second in ((0, 0), (1, 0), (2, 1), (255, 256), (256, 255), (0x1FF, 0x200), (0x200, 0x1FF), (0x3FFE, 0x3FFF), (0x3FFF, 0x3FFE)):
        yield framed(f"masks {first} {second}", [first, second], 1, 0)
    for count in range(2, 9):
        falling = [mask_of(action) for action in range(count)][::-1]
        yield framed(f"{count} masks falling", falling, 1, 0)
    yield framed("mask above the first, not the one before", [1, 4, 2], 1, 0)


def bits():
    for n in range(8):
        for role in (SERVICE, CLIENT):
            for bit in range(16):
                label = f"bit {bit}, n {n}, role {role}"
                yield Framed(label, loose_sheet([row([1 << bit])], n, role))
    for states, at in PLACES:
        for place in (0, 1, 6, 7):
            for bit in (14, 15):
                masks = list(WIDE)
                masks[place] |= 1 << bit
                label = f"bit {bit} in mask {place} of state {at} of {states}"
                yield Framed(label, loose_sheet(placed(states, at, row(masks))))
    for role in (SERVICE, CLIENT):
        marked = [0, 1, SUCCESS, SUCCESS | 1]
        yield Framed(f"marked ready sets in role {role}", loose_sheet([END_ROW, row(marked)], 1, role))
        every = [mask | SUCCESS for mask in WIDE]
        yield Framed(f"all marked in role {role}", loose_sheet([row(every)], 7, role))
        yield Framed(f"success and bit 15 in role {role}", loose_sheet([row([SUCCESS | 0x8000])], 7, role))
    for n in range(7):
        usable = [mask_of(action) for action in ACTIONS if name_of(action) < n]
        for beyond in (n, n + 7):
            masks = sorted([*usable[:7], mask_of(beyond)])
            yield Framed(f"n {n}, action {beyond} among others", loose_sheet([row(masks)], n))
            masks = [*usable[:7], mask_of(13, beyond)]
            yield Framed(f"n {n}, action {beyond} in the last mask", loose_sheet([row(masks)], n))
            masks = [mask | mask_of(beyond) for mask in usable[:8]]
            yield Framed(f"n {n}, action {beyond} in all masks", loose_sheet([row(masks or [0])], n))


def successors():
    for states, at in PLACES:
        for value in sorted({states - 1, states, states + 1, 63, 64, 127, 128, 255}):
            for place in (0, 6, 13):
                values = [0] * 14
                values[place] = value
                label = f"successor {place} of state {at} of {states} is {value}"
                yield Framed(label, loose_sheet(placed(states, at, row([0x3FFF], values))))
    for first, second in ((2, 3), (3, 2), (1, 2), (2, 1)):
        yield Framed(f"successors {first} {second} of 2", loose_sheet([row([1, 2], [first, second]), END_ROW]))
    yield Framed("a successor for the success mark", loose_sheet([row([SUCCESS], [0])], 1, CLIENT))
    yield Framed("a successor too many", loose_sheet([row([1], [0, 0])], 1))
    yield Framed("a successor for each ready set", loose_sheet([row([1, 3], [0, 0, 0])], 2))


def gaps():
    for states in (1, 2, 64):
        for size in (1, 2, 3, 255, 256, 257):
            for byte in (0, 1, 255):
                label = f"{size} times {byte} behind {states} rows"
                yield Framed(label, loose_sheet([END_ROW] * states, gap=bytes([byte]) * size))
        yield Framed(f"a row too many behind {states}", loose_sheet([END_ROW] * states, gap=END_ROW))
    for odd, what in ODD_ROWS:
        yield Framed(f"{what} and a gap", loose_sheet([END_ROW, odd], 2, gap=b"\0\0\0"))


#: One fault each, over two names and at most 63 states.
ODD_ROWS = [
    (row([0], count=0), "no ready sets"),
    (row([0], count=9), "too many ready sets"),
    (row([2, 1]), "masks falling"),
    (row([1, 1]), "masks the same"),
    (row([4]), "a name too many"),
    (row([1, 0x8001]), "bit 15"),
    (row([1], [64]), "a successor too large"),
    (row([3], [0, 255]), "the last successor too large"),
]


def orders_of_faults():
    """Two faults in one sheet: which of them decides."""
    for first, one in ODD_ROWS:
        for second, two in ODD_ROWS:
            yield Framed(f"{one}, then {two}", loose_sheet([first, second, END_ROW], 2))
        wrong_entry = loose_sheet([END_ROW, first], 2, entries={1: 2})
        yield Framed(f"entry wrong and {one}", wrong_entry)
        yield Framed(f"{one}, then entry wrong", loose_sheet([first, END_ROW], 2, entries={1: 2}))
        yield Framed(f"{one}, then nothing", loose_sheet([first], 2, count=2))
    in_one_mask = [
        ("falling with bit 15 before it", [0x8001, 1], 7),
        ("the same with bit 15", [0x8001, 0x8001], 7),
        ("falling and a name too many", [0x81, 0x02], 1),
        ("the same, a name too many", [1, 2, 2], 1),
        ("order at mask 1, bits at mask 2", [1, 0, 0x8000], 7),
        ("bits at mask 1, order at mask 2", [1, 0x8000, 2], 7),
        ("bits at mask 0, order at mask 1", [2, 1], 1),
        ("success mark falling", [SUCCESS | 1, SUCCESS], 7),
        ("order at the last mask, with bits", [1, 2, 3, 0x80, 0x81, 0x82, 0x83, 4], 2),
        ("order at the last mask, bits before", [1, 2, 3, 4, 5, 6, 0x8000, 7], 3),
    ]
    for label, masks, n in in_one_mask:
        for role in (SERVICE, CLIENT):
            yield Framed(f"{label}, role {role}", loose_sheet([row(masks)], n, role))
            yield Framed(f"{label}, role {role}, last state", loose_sheet([END_ROW, row(masks)], n, role))
    cut_short = [
        ("masks falling and missing", row([2, 1, 0])[:6], 2),
        ("bit 15 and masks missing", row([0x8000, 0x8001])[:4], 2),
        ("count 9 and masks missing", row([1], count=9)[:3], 2),
        ("count 0 alone", b"\0", 2),
        ("bit 15 and successors missing", row([0x8001], []), 2),
        ("masks falling and successors missing", row([3, 1], []), 2),
        ("a successor too large, the next missing", row([3], [255]), 2),
    ]
    for label, odd, n in cut_short:
        yield Framed(label, loose_sheet([odd], n))
        yield Framed(f"{label}, last state", loose_sheet([END_ROW, odd], n))


def edges():
    for group in (
        lengths,
        trailers,
        indexes,
        entries,
        missing,
        counts,
        orders,
        bits,
        successors,
        gaps,
        orders_of_faults,
    ):
        yield from group()
