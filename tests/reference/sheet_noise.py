"""Sheets with masks that have forbidden bits, are out of order, or both.

"The bits of all masks in a row are tested before the order of any" (document
02, request 2/13): the places of both faults, one against the other, and what
comes before and behind them.
"""

from .actions import SUCCESS, mask_of
from .framing import Framed, number_bytes
from .sheet_edges import END_ROW, ODD_ROWS, PLACES, loose_sheet, placed, row
from .sheets import CLIENT, SERVICE

#: Over so many names, eight masks, ascending.  A mask without actions that
#: send lies below all of them.
NAMES = 4
SORTED = [(place + 1) << 7 for place in range(8)]

#: Bits that no service over so many names may have.  The first lies below some
#: that it may have, so a mask can have it and be out of order behind a mask
#: without noise; the others lie above all of these.
NOISE = [
    ("a name too many, taken", mask_of(4)),
    ("a name too many, sent", mask_of(11)),
    ("the success mark", SUCCESS),
    ("bit 15", 0x8000),
]
TAKEN, BIT_15 = NOISE[0][1], NOISE[3][1]


def falling(*places):
    """The sorted masks, but in these places the lowest of all."""
    return [0 if place in places else mask for place, mask in enumerate(SORTED)]


def noisy(masks, noise, *places):
    """The masks, with the noise in these places."""
    return [mask | noise if place in places else mask for place, mask in enumerate(masks)]


def framed(label, masks, role=SERVICE, n=NAMES):
    return Framed(f"{label}, role {role}", loose_sheet([row(masks)], n, role))


def order_against_bits():
    """Each mask out of order, with noise of each kind in each place: before
    it, in it and behind it."""
    for kind, noise in NOISE:
        for out in range(1, 8):
            for at in range(8):
                yield framed(f"{kind} in mask {at}, mask {out} falling", noisy(falling(out), noise, at))
    for out in range(1, 8):
        for at in sorted({0, out - 1, out, 7}):
            yield framed(f"the success mark in mask {at}, mask {out} falling", noisy(falling(out), SUCCESS, at), CLIENT)


def out_of_order_by_noise():
    """Masks that would ascend without it."""
    for kind, noise, role in ((*NOISE[0], SERVICE), (*NOISE[3], SERVICE), ("the success mark", SUCCESS, CLIENT)):
        for at in range(8):
            yield framed(f"{kind} in mask {at}", noisy(SORTED, noise, at), role)


def masks_the_same():
    """Two of the same, and noise: behind both, in both, or in one of them, so
    that they are two."""
    for second in range(1, 8):
        same = [*SORTED[:second], *SORTED[second - 1 : 7]]
        for where in [(second - 1,), (second,), (second - 1, second)]:
            yield framed(f"masks {second - 1} and {second} the same but for noise in {where}", noisy(same, TAKEN, *where))
        yield framed(f"masks {second - 1} and {second} the same, bit 15 in the last", noisy(same, BIT_15, 7))


def below_the_success_mark():
    """An allowed mask with the success mark, and below it one that sends a
    name too many: both faults in one mask.  In role 0 the first has noise."""
    for out in range(1, 8):
        masks = [*SORTED[: out - 1], SUCCESS, mask_of(11)]
        for role in (CLIENT, SERVICE):
            yield framed(f"a name too many, sent, below the success mark in mask {out - 1}", masks, role)


def two_of_each():
    """Two masks out of order, or two with noise, or both."""
    for first in range(1, 6):
        for kind, noise in (NOISE[0], NOISE[3]):
            yield framed(f"{kind} between falling masks {first} and {first + 2}", noisy(falling(first, first + 2), noise, first + 1))
    for out in (1, 4, 7):
        for one, other in ((0, 1), (0, 7), (3, 4), (4, 5), (6, 7)):
            masks = noisy(noisy(falling(out), TAKEN, one), BIT_15, other)
            yield framed(f"noise in masks {one} and {other}, mask {out} falling", masks)


def all_masks():
    for count in range(2, 9):
        down = SORTED[:count][::-1]
        yield framed(f"{count} masks falling, bit 15 in the first", noisy(down, BIT_15, 0))
        yield framed(f"{count} masks falling, a name too many in the last", noisy(down, TAKEN, count - 1))
        yield framed(f"{count} masks falling, bit 15 in all", noisy(down, BIT_15, *range(count)))
        yield framed(f"{count} masks the same, bit 15 in all", [0x8001] * count)
    for first, second in ((0xFFFF, 0xFFFF), (0xFFFF, 0), (0, 0xFFFF), (0x8000, 0x7FFF), (0x7FFF, 0x8000), (SUCCESS, SUCCESS)):
        for role in (SERVICE, CLIENT):
            yield framed(f"masks {first} {second}", [first, second], role, 7)
            yield framed(f"masks {second} {first} {first} {second}", [second, first, first, second], role, 7)


def which_bits():
    """The same mask twice, then the highest bits allowed and the lowest
    forbidden, over each number of names."""
    for n in range(8):
        for bit in sorted({n - 1, n, n + 6, n + 7, 14, 15} & set(range(16))):
            yield framed(f"no actions twice, then bit {bit}, n {n}", [0, 0, 1 << bit], SERVICE, n)
        for bit in (14, 15):
            yield framed(f"no actions twice, then bit {bit}, n {n}", [0, 0, 1 << bit], CLIENT, n)


#: Rows over two names with both faults; and with one each.
BOTH = [
    (row([2, 1, 0x8003]), "falling, bit 15 behind"),
    (row([0x8001, 2, 1]), "bit 15, then falling"),
    (row([0x80, 0x04]), "falling and a name too many"),
]
EITHER = [
    (row([2, 1, 0]), "falling"),
    (row([1, 2, 0x8003]), "bit 15"),
]


def in_states():
    """The rows in each place, and one of them in the first state and another
    in the last: the first decides."""
    for odd, what in BOTH:
        for states, at in PLACES:
            yield Framed(f"{what}, state {at} of {states}", loose_sheet(placed(states, at, odd), 2))
    for first, one in BOTH + EITHER:
        for second, two in BOTH + EITHER:
            yield Framed(f"{one}; {two}", loose_sheet([first, second], 2))
    for (first, one), (second, two) in (EITHER, EITHER[::-1], (EITHER[0], BOTH[0]), (BOTH[0], EITHER[0])):
        yield Framed(f"{one}; {two}, 64 states", loose_sheet([first, *[END_ROW] * 62, second], 2))


def beside_other_faults():
    """Other faults before and behind, in another row and in the same."""
    for odd, what in BOTH:
        for other, fault in ODD_ROWS:
            yield Framed(f"{what}, then {fault}", loose_sheet([odd, other], 2))
            yield Framed(f"{fault}, then {what}", loose_sheet([other, odd], 2))
        yield Framed(f"{what}, entry wrong", loose_sheet([END_ROW, odd], 2, entries={1: 2}))
        yield Framed(f"{what}, then entry wrong", loose_sheet([odd, END_ROW], 2, entries={1: 2}))
        yield Framed(f"{what}, then nothing", loose_sheet([odd], 2, count=2))
        yield Framed(f"{what}, then a gap", loose_sheet([odd], 2, gap=b"\0"))
        for count in (0, 9, 255):
            yield Framed(f"{what}, count {count}", loose_sheet([bytes([count]) + odd[1:]], 2))
            yield Framed(f"{what}, count {count}, last state", loose_sheet([END_ROW, bytes([count]) + odd[1:]], 2))
    nine = [*falling(1), 0x8000]
    yield Framed("nine masks, falling, bit 15", loose_sheet([row(nine)], NAMES))


def cut_short():
    """Rows cut off at each of their bytes: masks missing come before both
    faults, successors missing behind."""
    for odd, what in BOTH + EITHER:
        for cut in range(1, len(odd)):
            yield Framed(f"{what}, cut to {cut}", loose_sheet([END_ROW, odd[:cut]], 2))


def successors_behind():
    """Successors too large, and missing, behind masks at fault."""
    for masks, what in (([2, 1, 0x8003], "both"), ([2, 1, 0], "falling"), ([1, 2, 0x8003], "bit 15")):
        for values in ([255, 255], [0, 255], [255], []):
            yield Framed(f"{what}, successors {values}", loose_sheet([row(masks, values)], 2))


def noise_in_no_mask():
    """Masks out of order, and bytes that would be noise if they stood in a
    mask: in successors, in masks not counted, in the next row."""
    masks = number_bytes(2) + number_bytes(1)
    for behind in (b"\x80\x80", b"\x00\x80", b"\xff\xff", b"\x00\x80\x00\x80"):
        for count in (1, 2):
            rows = [bytes([count]) + masks + behind]
            yield Framed(f"{count} of two falling masks, {behind.hex(' ')} behind", loose_sheet(rows, 2))
            yield Framed(f"{count} of two falling masks, {behind.hex(' ')} behind, first state", loose_sheet([*rows, END_ROW], 2))
    yield Framed("falling, bit 15 in the index", loose_sheet([row([2, 1])], 2, entries={0: 0x8000}))
    yield Framed("falling, bit 15 in the next entry", loose_sheet([row([2, 1]), END_ROW], 2, entries={1: 0x8000}))


def masks_with_noise():
    for group in (
        order_against_bits,
        out_of_order_by_noise,
        masks_the_same,
        below_the_success_mark,
        two_of_each,
        all_masks,
        which_bits,
        in_states,
        beside_other_faults,
        cut_short,
        successors_behind,
        noise_in_no_mask,
    ):
        yield from group()
