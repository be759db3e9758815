"""The cases M1 to M13 (document 01, "Cases"), letters as names by position:
a is 0, b is 1, and so on."""

from typing import NamedTuple

from .actions import mask_of, partner
from .sheets import SERVICE, Contract, state

A, B, C, D = range(4)


def send(name):
    return partner(name)


END = state([0], [])
NOTHING = [END]


def then(*actions):
    """The actions one after the other, then the end."""
    return [state([mask_of(action)], [i + 1]) for i, action in enumerate(actions)] + [END]


def either(*actions):
    """The partner chooses among the actions; then the end."""
    return [state([mask_of(*actions)], [1] * len(actions)), END]


def internally(*actions):
    """An internal choice among the actions; then the end."""
    return [state([mask_of(action) for action in actions], [1] * len(actions)), END]


class Case(NamedTuple):
    name: str
    n: int
    old: list
    new: list
    k: int
    number: int
    counts: tuple

    def contracts(self):
        return [Contract(self.n, SERVICE, tuple(states)) for states in (self.old, self.new)]


FOR_EVER = [state([mask_of(A)], [0])]

CASES = [
    Case("M1", 2, then(A), either(A, B), 0, 0, (2, 2, 0)),
    Case("M2", 1, NOTHING, then(A), 0, 0, (1, 1, 0)),
    Case("M3", 1, then(A), NOTHING, 0, 12, (1, 0, 1)),
    Case("M4", 1, then(A), NOTHING, 1, 0, (2, 2, 0)),
    Case("M5", 1, then(send(A)), NOTHING, 3, 12, (1, 0, 1)),
    Case("M6", 1, NOTHING, then(send(A)), 1, 0, (2, 2, 0)),
    Case("M7", 2, then(A), internally(A, B), 0, 12, (2, 0, 1)),
    Case("M8", 2, then(A), internally(A, B), 1, 0, (3, 3, 0)),
    Case("M9", 2, internally(A, B), then(A), 0, 0, (2, 2, 0)),
    Case("M10", 4, then(A, send(C)), then(A, send(D)), 0, 12, (2, 0, 2)),
    Case("M11", 1, FOR_EVER, FOR_EVER, 1, 0, (2, 2, 0)),
    Case("M12", 3, then(C, A), then(A, C), 0, 12, (1, 0, 1)),
    Case("M13", 3, then(C, A), then(A, C), 1, 0, (5, 5, 0)),
]

#: M1 whole, as document 01 prints it.
M1_OLD = bytes.fromhex("01 01 00 01  01 00 00  00 00 04 00  07 00 02 02 00 C5")
M1_NEW = bytes.fromhex("01 03 00 01 01  01 00 00  00 00 05 00  08 00 02 02 00 C5")
M1_PLAN = bytes.fromhex("01 00 01 00  00  00 00 00 00 04 00 00 00  05 00 00 00 02 00 02 00")
M1_PRINT = "answer 0 0 0\ncounts 2 2 0\n0 0 1\n"
