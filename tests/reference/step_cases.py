"""Plans to be stepped.

A case is: state (16 bits), code (one byte), and the plan to the end.  Its
line is: number and next state.
"""

from .actions import MOST_NAMES
from .chance import Chance
from .connecting import connect
from .framing import Framed, number_bytes
from .moves import CODES
from .pairs import MARKED, RECORDS, ROOM, small_sheets
from .plans import MOST_MOVES, Plan, read_plan, step, write_plan
from .relation import PAPER

SEED = 20100903


def framed(label, plan, state, code):
    return Framed(label, number_bytes(state) + bytes([code]) + plan)


def expected(data):
    number, after = step(data[3:], int.from_bytes(data[:2], "little"), data[2])
    return f"{number} {after}\n"


def group(data):
    return int(expected(data).split()[0])


def emitted_plan(chance, most=40):
    """An emitted plan of at most so many states."""
    while True:
        first, second = small_sheets(chance)
        after = connect(PAPER, first, second, chance.below(4), bytes(ROOM), [MARKED] * RECORDS)
        if after.answer.number == 0 and 2 <= after.answer.plan_states <= most:
            return after.plan[: after.answer.plan_length]


def questions(chance, plan):
    """Each kind of question about a plan that is whole."""
    rows = read_plan(plan).rows
    for _ in range(4):
        state = chance.below(len(rows))
        if rows[state]:
            yield framed("held", plan, state, chance.pick(rows[state])[0])
        yield framed("any code", plan, state, chance.pick(CODES))
    last = len(rows) - 1
    yield framed("last state", plan, last, rows[last][-1][0] if rows[last] else 0)
    yield framed("behind the last state", plan, len(rows), 0)
    yield framed("far behind the last state", plan, chance.pick([256 + last, 4096, 65535]), 0)
    yield framed("no code", plan, 0, chance.pick([14, 15, 30, 31, 46, 64, 128, 255]))


def layout_edges():
    """Plans with one thing wrong, and the largest that are right."""
    for code in range(256):
        yield framed(f"code {code}, n 7", write_plan(Plan(7, 3, [[(code, 0)]])), 0, code)
    for n in range(9):
        for code in (n - 1, n, n + 6, n + 7, n + 15, n + 16, n + 22, n + 38, n + 39):
            if code >= 0:
                yield framed(f"code {code}, n {n}", write_plan(Plan(n, 0, [[(code, 0)]])), 0, code)
    for k in (0, 3, 4, 5, 128, 255):
        yield framed(f"k {k}", write_plan(Plan(MOST_NAMES, k, [[]])), 0, 0)
    for count in (1, 2, 4095, 4096, 4097):
        plan = write_plan(Plan(1, 1, [[]] * (count - 1) + [[(0, 0)]]))
        yield framed(f"{count} states", plan, count - 1, 0)
    yield framed("no states", write_plan(Plan(1, 1, [])), 0, 0)
    every = [(code, 0) for code in CODES]
    yield framed("42 moves", write_plan(Plan(7, 3, [every])), 0, 45)
    yield framed("43 moves", write_plan(Plan(7, 3, [[*every, (46, 0)]])), 0, 45)
    assert len(every) == MOST_MOVES
    for codes in ([0, 0], [1, 0], [16, 0], [32, 16], [0, 16, 16], [0, 32, 16]):
        plan = write_plan(Plan(7, 3, [[(code, 0) for code in codes]]))
        yield framed(f"codes {codes}", plan, 0, codes[0])
    for after in (1, 2, 3, 256, 65535):
        plan = write_plan(Plan(1, 1, [[(0, 1)], [(0, after)]]))
        yield framed(f"next state {after} of 2", plan, 1, 0)
    whole = write_plan(Plan(1, 1, [[(0, 1)], [(7, 0)]]))
    for length in range(len(whole)):
        yield framed(f"first {length} bytes", whole[:length], 0, 0)
        yield framed(f"last {length} bytes", whole[len(whole) - length :], 0, 0)
    for at in range(len(whole)):
        for by in (1, 2, 128, 255):
            plan = whole[:at] + bytes([whole[at] ^ by]) + whole[at + 1 :]
            yield framed(f"byte {at} changed", plan, 1, 7)
    for index in (0xFFFFFFFC, 0xFFFFFFF8, 0x80000000, 0x10000):
        trailer = number_bytes(index, 4) + bytes([1, 0, 1, 1])
        yield framed(f"index offset {index}", bytes(4) + trailer, 0, 0)
    yield framed("a gap behind the rows", bytes([0, 0]) + bytes(4) + bytes([2, 0, 0, 0, 1, 0, 1, 1]), 0, 0)


def damaged(chance, plan):
    at = chance.below(len(plan))
    kind = chance.below(4)
    if kind == 0:
        plan = plan[:at]
    elif kind == 1:
        plan = plan[:at] + chance.data(1) + plan[at:]
    else:
        plan = plan[:at] + bytes([plan[at] ^ chance.between(1, 255)]) + plan[at + 1 :]
    return framed("damaged", plan, chance.below(3), chance.pick(CODES))


def cases():
    chance = Chance(SEED)
    yield from layout_edges()
    for _ in range(120):
        yield from questions(chance, emitted_plan(chance))
    for _ in range(300):
        yield damaged(chance, emitted_plan(chance, 12))
