"""Edited plans with as many pairs as there may be, and more; too many pairs
before unsound ones and behind them."""

from .actions import mask_of
from .cases import A, B, END, send
from .edits import framed, service
from .moves import WITH_CLIENT, WITH_SERVICE
from .plans import Plan
from .sheets import state

MOST = 4096
A_OR_B = mask_of(A, B)


def wheel(by, usual, last):
    """64 states in a cycle: one action leads on, the other stays.  The last
    state has ready sets of its own."""
    rows = []
    for at in range(64):
        rows.append(state(last if at == 63 else usual, [(at + (action == by)) % 64 for action in (A, B)]))
    return service(2, *rows)


#: The client chooses, or the service does.
TOGETHER, APART = [A_OR_B], [mask_of(A), mask_of(B)]

#: Every state of the one meets every state of the other.
SOUND = wheel(A, TOGETHER, TOGETHER), wheel(B, TOGETHER, TOGETHER)

#: The same, but where both are in their last states, which are the farthest,
#: b is not enough.
LAST_WRONG = wheel(A, APART, [mask_of(A), A_OR_B]), wheel(B, TOGETHER, APART)

ONE_ROW = Plan(2, 0, [[(A, 0), (B, 0)]])

#: The start has a row of its own, so that there is one pair more.
TWO_ROWS = Plan(2, 0, [[(A, 1), (B, 1)], [(A, 1), (B, 1)]])

#: The same with a first row that is unsound.
BAD_START = Plan(2, 0, [[(A, 1), (B, 1), (WITH_SERVICE + A, 1)], [(A, 1), (B, 1)]])

LENT = (0, 1, MOST - 1, MOST, MOST + 1, 5000)


def most_pairs():
    """4,096 pairs and 4,097, by few plan states, with fewer records, exactly
    enough and more; all sound, the first unsound, the last unsound."""
    for name, sheets, plan in [
        ("4,096 pairs", SOUND, ONE_ROW),
        ("4,096 pairs, the last unsound", LAST_WRONG, ONE_ROW),
        ("4,097 pairs", SOUND, TWO_ROWS),
        ("4,097 pairs, the first unsound", SOUND, BAD_START),
        ("4,097 pairs, the last unsound", LAST_WRONG, TWO_ROWS),
    ]:
        for records in LENT:
            yield framed(f"{name}, {records} records", *sheets, plan, records)


def every_buffer():
    """A row that holds everything, over six names: every buffer is reached,
    and the start is unsound."""
    every = [*range(6), *range(7, 13)]
    loop = service(6, state([mask_of(*every)], [0] * 12))
    row = [(start + action, 0) for start in (0, WITH_CLIENT, WITH_SERVICE) for action in every]
    for records in (MOST - 1, MOST, MOST + 1):
        yield framed(f"every buffer, {records} records", loop, loop, Plan(6, 1, [row]), records)


def full_plan():
    """4,096 plan states, each in one pair: the plan goes round once more with
    the pairs of states.  With the last row struck, and with one more in it."""
    rows = [[(A, (at + 1) % MOST)] for at in range(MOST)]
    ring = [state([mask_of(A)], [(at + 1) % 64]) for at in range(64)]
    contract = service(2, *ring)
    for name, last in [
        ("whole", rows[-1]),
        ("last row empty", []),
        ("last row with a move too many", [*rows[-1], (WITH_CLIENT + B, 0)]),
    ]:
        plan = Plan(2, 0, [*rows[:-1], last])
        for records in (MOST - 1, MOST) if name == "whole" else (MOST,):
            yield framed(f"4,096 plan states, {name}, {records} records", contract, contract, plan, records)


def states_without_pairs():
    """4,096 plan states of which one is reached, with one record; and one
    state more, which makes it no plan."""
    end = service(1, END)
    for states in (MOST, MOST + 1):
        for records in (0, 1):
            yield framed(f"{states} plan states, {records} records", end, end, Plan(1, 1, [[]] * states), records)


def capacity_first():
    """A chain of so many pairs, one of which is unsound: with fewer records
    than pairs it is 11 wherever that pair is; behind an unsound pair the walk
    goes on."""
    length = 9
    old = new = service(2, *(state([A_OR_B], [at + 1] * 2) for at in range(length - 1)), END)
    for wrong in range(length):
        for extra in ((WITH_SERVICE + A, 0), (WITH_CLIENT + send(A), 0), None):
            rows = [[(A, at + 1), (B, at + 1)] for at in range(length - 1)] + [[]]
            if extra is None:
                if wrong == length - 1:
                    continue
                rows[wrong] = rows[wrong][:1]
            else:
                rows[wrong] = [*rows[wrong], extra]
            for records in (1, length - 1, length, length + 1):
                label = f"pair {wrong} of {length} unsound, {records} records"
                yield framed(label, old, new, Plan(2, 1, [sorted(row) for row in rows]), records)


def limits():
    yield from most_pairs()
    yield from every_buffer()
    yield from full_plan()
    yield from states_without_pairs()
    yield from capacity_first()
