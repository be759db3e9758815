"""The benchmark's choosing sheets, and random ones to compare.

A record is: name (8-bit length and that many bytes); lent output bytes (16
bits); the choosing sheet behind its length (16 bits).  Numbers are
little-endian.  The names of random ones are empty.
"""

from typing import NamedTuple

from tests.reference.chance import Chance
from tests.reference.choosing import Choosing, hiding, open_row, write_choosing
from tests.reference.choosing_dense import dense
from tests.reference.choosing_random import careless, damaged, whole, whole_large, with_circles
from tests.reference.framing import measured, number_bytes
from tests.reference.sheets import LONGEST

RANDOM_SHEETS = 4000
SEED = 20100907


class Input(NamedTuple):
    name: str
    choosing: bytes
    room: int = LONGEST

    def data(self):
        name = self.name.encode()
        return bytes([len(name)]) + name + number_bytes(self.room) + measured(self.choosing)


# As it stands in an editor: an order is taken and refused or not, which only
# the service knows; then a payment.

ORDER, PAYMENT, RECEIPT, REFUSAL = 0, 1, 10, 11
NAMES = 5

SHOP = (
    open_row({ORDER: [1]}),
    hiding(2, 3),
    open_row({PAYMENT: [4, 5]}),
    open_row({REFUSAL: [6]}),
    open_row({RECEIPT: [0]}),
    open_row({REFUSAL: [0]}),
    open_row(),
)


def inputs():
    yield Input("choosing, editor", write_choosing(Choosing(NAMES, SHOP)))
    yield Input("choosing, 64 dense states", write_choosing(dense(late=False)))
    yield Input("choosing, 19 at the very end", write_choosing(dense(late=True)))


def random_inputs():
    chance = Chance(SEED)
    for _ in range(RANDOM_SHEETS):
        make = chance.pick([whole, whole, whole, whole_large, with_circles, damaged, careless])
        yield Input("", make(chance), chance.pick([LONGEST, 300, 60, 20, 0]))
