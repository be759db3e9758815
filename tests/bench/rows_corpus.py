"""The benchmark's rows of sheets, and random ones to compare.

A record is: name (8-bit length and that many bytes); the number of the sheet and
the state (8 bits each); the first sheet and the second, each behind its length
(16 bits).  Numbers are little-endian.  The names of random ones are empty.
"""

from typing import NamedTuple

from tests.bench.shop import NAMES, PAYMENT_FIRST, SHOP
from tests.reference.actions import ACTIONS, mask_of
from tests.reference.chance import Chance
from tests.reference.framing import measured
from tests.reference.pair_cases import small_sheets
from tests.reference.sheet_random import careless_sheet, changed
from tests.reference.sheets import SERVICE, Contract, state, write_sheet

RANDOM_ROWS = 10000
SEED = 20100912


class Input(NamedTuple):
    name: str
    sheet: int
    state: int
    first: bytes
    second: bytes

    def data(self):
        name = self.name.encode()
        asked = bytes([self.sheet, self.state])
        return bytes([len(name)]) + name + asked + measured(self.first) + measured(self.second)


def editor():
    first, second = (write_sheet(Contract(NAMES, SERVICE, tuple(states))) for states in (SHOP, PAYMENT_FIRST))
    yield Input("rows, editor, first", 1, 0, first, second)
    yield Input("rows, editor, last", 2, len(PAYMENT_FIRST) - 1, first, second)


# Sheets of full size: 64 states, 8 ready sets, 14 actions, so that each row has
# 31 bytes.

MOST = 64


def full_size(chance):
    states = []
    for _ in range(MOST):
        ready = {mask_of(*ACTIONS)}
        while len(ready) < 8:
            ready.add(mask_of(*chance.some(ACTIONS)))
        states.append(state(ready, [chance.below(MOST) for _ in ACTIONS]))
    return write_sheet(Contract(7, SERVICE, tuple(states)))


def full_sheets():
    chance = Chance(SEED)
    first, second = full_size(chance), full_size(chance)
    late = bytearray(second)
    late[-6 - 2 * MOST - 1] = MOST
    yield Input("rows, full sheets, first", 2, 0, first, second)
    yield Input("rows, full sheets, last", 2, MOST - 1, first, second)
    yield Input("rows, full sheets, 7 in the last", 2, 0, first, bytes(late))
    yield Input("rows, full sheets, 15", 2, MOST, first, second)


def inputs():
    yield from editor()
    yield from full_sheets()


def random_inputs():
    """Small ones, and damaged ones."""
    chance = Chance(SEED)
    for _ in range(RANDOM_ROWS):
        first, second = small_sheets(chance)
        kind = chance.below(4)
        if kind == 0:
            first, second = changed(chance, first), changed(chance, second)
        elif kind == 1:
            first, second = careless_sheet(chance), careless_sheet(chance)
        sheet = chance.below(256) if chance.one_in(16) else chance.pick([1, 2])
        yield Input("", sheet, chance.below(8), first, second)
