"""What cases of pairs are made of: what is lent, and small random pairs."""

from .framing import Framed, measured, number_bytes
from .moves import Situation
from .random_contracts import Shape, random_contract, resembling
from .relation import PAPER
from .sheets import SERVICE, write_sheet

MARKED = Situation((1,) * 14, 1, 1)

#: What most cases lend: more situations than most of the pairs have.
RECORDS, ROOM = 300, 20000


def framed(label, first, second, k, records=RECORDS, room=ROOM, mode=PAPER):
    """A case; the mode may be any byte."""
    data = number_bytes(records) + number_bytes(room) + bytes([mode, k]) + measured(first) + second
    return Framed(label, data)


def small_shape(chance, n=None):
    names = chance.pick([0, 1, 1, 2, 2, 2, 3, 3]) if n is None else n
    return Shape(names, chance.between(1, 5), chance.between(1, 3), chance.between(1, 3), 5)


def small_pair(chance):
    """Two contracts over the same names, for two in three alike."""
    shape = small_shape(chance)
    old = random_contract(chance, shape, SERVICE)
    if chance.one_in(3):
        return old, random_contract(chance, shape, SERVICE)
    return old, resembling(chance, shape, old)


def small_sheets(chance):
    old, new = small_pair(chance)
    return write_sheet(old), write_sheet(new)
