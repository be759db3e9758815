"""Contracts, and sheets read and written (document 01, "Contracts as sheets",
and requests 2/13 and 6/13 of document 02).

A sheet that cannot be read gives a Refusal.  Its offset is that of the byte
at fault in the sheet, and 0 for refusals 1 to 3:

- an index entry that is wrong: the entry's first byte;
- bytes missing from a row: the index's offset, where the first of them would
  have to stand;
- a wrong count of ready sets: the count byte;
- masks with forbidden bits: the first byte of the first of them;
- masks out of order: the first byte of the first that is not above the one
  before it;
- a successor: its byte;
- bytes left over: the first of them, directly behind the last row.
"""

from typing import NamedTuple

from .actions import MOST_NAMES, actions_of, allowed_mask

SERVICE, CLIENT = 0, 1
CLOSING = 0xC5
TRAILER = 6
MOST_STATES = 64
MOST_READY = 8
LONGEST = 2118


class State(NamedTuple):
    """Ready sets as masks, ascending; a successor for each offered action."""

    ready: tuple
    successor: dict

    def offers(self, action):
        return action in self.successor


class Contract(NamedTuple):
    n: int
    role: int
    states: tuple


class Refusal(NamedTuple):
    number: int
    state: int = 0
    offset: int = 0


class Refused(Exception):
    """Ends the reading of a sheet at its first fault."""

    def __init__(self, number, state=0, offset=0):
        super().__init__(number, state, offset)
        self.refusal = Refusal(number, state, offset)


def offered(ready):
    """The actions that some ready set has, ascending."""
    union = 0
    for mask in ready:
        union |= mask
    return actions_of(union)


def state(ready, successors):
    """A state from its ready sets and the successors of its offered actions."""
    ready = tuple(sorted(ready))
    return State(ready, dict(zip(offered(ready), successors, strict=True)))


# Writing


def row_bytes(row):
    masks = b"".join(mask.to_bytes(2, "little") for mask in row.ready)
    successors = bytes(row.successor[action] for action in offered(row.ready))
    return bytes([len(row.ready)]) + masks + successors


def write_sheet(contract):
    """The bytes of a contract's one sheet: rows, index, trailer, no gaps."""
    rows, index = b"", b""
    for row in contract.states:
        index += len(rows).to_bytes(2, "little")
        rows += row_bytes(row)
    trailer = bytes([len(contract.states), contract.n, contract.role, CLOSING])
    return rows + index + len(rows).to_bytes(2, "little") + trailer


# Reading


class Trailer(NamedTuple):
    index: int
    count: int
    n: int
    role: int


def number_at(sheet, offset):
    return int.from_bytes(sheet[offset : offset + 2], "little")


def row_start(sheet, number):
    """Where the index says that a state's row begins."""
    return number_at(sheet, number_at(sheet, len(sheet) - TRAILER) + 2 * number)


def read_trailer(sheet):
    """Refusals 1 to 3."""
    if not TRAILER <= len(sheet) <= LONGEST:
        raise Refused(1)
    index = number_at(sheet, len(sheet) - TRAILER)
    count, n, role, closing = sheet[-4:]
    right = 1 <= count <= MOST_STATES and n <= MOST_NAMES and role in (SERVICE, CLIENT) and closing == CLOSING
    if not right:
        raise Refused(2)
    if index + 2 * count + TRAILER != len(sheet):
        raise Refused(3)
    return Trailer(index, count, n, role)


def read_masks(sheet, trailer, number, at):
    """The ready sets of a state, the masks from offset `at` on all present.
    "The bits of all masks in a row are tested before the order of any"
    (document 02, request 2/13)."""
    wanted = allowed_mask(trailer.n, trailer.role)
    places = range(at, at + 2 * sheet[at - 1], 2)
    ready = tuple(number_at(sheet, place) for place in places)
    for place, mask in zip(places, ready):
        if mask & ~wanted:
            raise Refused(6, number, place)
    for place, before, mask in zip(places[1:], ready, ready[1:]):
        if mask <= before:
            raise Refused(5, number, place)
    return ready


def read_row(sheet, trailer, number, start):
    """A state and the end of its row, the row before having ended at `start`."""
    entry = trailer.index + 2 * number
    if number_at(sheet, entry) != start:
        raise Refused(4, number, entry)
    if start + 1 > trailer.index:
        raise Refused(4, number, trailer.index)
    count = sheet[start]
    if not 1 <= count <= MOST_READY:
        raise Refused(5, number, start)
    after_masks = start + 1 + 2 * count
    if after_masks > trailer.index:
        raise Refused(4, number, trailer.index)
    ready = read_masks(sheet, trailer, number, start + 1)
    actions = offered(ready)
    end = after_masks + len(actions)
    if end > trailer.index:
        raise Refused(4, number, trailer.index)
    for place in range(after_masks, end):
        if sheet[place] >= trailer.count:
            raise Refused(7, number, place)
    return State(ready, dict(zip(actions, sheet[after_masks:end]))), end


def read_sheet(sheet):
    """The contract of a sheet, or the Refusal of its first fault."""
    try:
        trailer = read_trailer(sheet)
        states, end = [], 0
        for number in range(trailer.count):
            row, end = read_row(sheet, trailer, number, end)
            states.append(row)
        if end != trailer.index:
            raise Refused(4, trailer.count - 1, end)
    except Refused as refused:
        return refused.refusal
    return Contract(trailer.n, trailer.role, tuple(states))
