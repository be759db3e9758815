"""Pairs to be connected.

A case is: number of lent records (16 bits), lent plan bytes (16 bits), the
mode (one byte), then the connecting program's input: k (one byte), the first
sheet's length (16 bits), that sheet, and the second to the end.  Before the
call every byte of the lent plan is EE hex and no record of the work table is
zero.

Its line is: number, sheet, state, offset; situations, plan states, rounds; the
plan's length; the digest of the whole lent plan after the call; how many lent
records are zero after it, and how many are as they were.
"""

from .cases import CASES
from .chance import Chance
from .connecting import ZERO_RECORD, connect
from .framing import digest, mode_of
from .pair_settled import settled_pairs
from .pair_settled_random import random_settled_pairs
from .pairs import MARKED, RECORDS, ROOM, framed, small_shape, small_sheets
from .random_contracts import random_contract
from .relation import PAPER
from .sheet_faults import faulty_pairs
from .sheet_random import careless_sheet, changed, untidy_sheet
from .sheets import CLIENT, SERVICE, Contract, state, write_sheet

SEED, SETTLED_SEED = 20100902, 20100909
FILLING = 0xEE


def called(data):
    """The call that a case describes."""
    records, room = (int.from_bytes(data[at : at + 2], "little") for at in (0, 2))
    mode, k, behind = mode_of(data[4]), data[5], 8 + int.from_bytes(data[6:8], "little")
    return connect(mode, data[8:behind], data[behind:], k, bytes([FILLING]) * room, [MARKED] * records)


def expected(data):
    answer, plan, table = called(data)
    zero, same = table.count(ZERO_RECORD), table.count(MARKED)
    return " ".join(map(str, [*answer, digest(plan), zero, same])) + "\n"


def group(data):
    """The number, the mode, and for a pair that was decided its k."""
    number, mode = called(data).answer.number, mode_of(data[4]).name.lower()
    return f"{number:2} {mode} k {data[5]}" if number in (0, 12) else f"{number:2} {mode}"


def named_cases():
    for case in CASES:
        first, second = (write_sheet(contract) for contract in case.contracts())
        for k in range(5):
            yield framed(f"{case.name}, k {k}", first, second, k)


def limits(chance):
    """Accepted pairs and refused ones with exactly enough lent, and less."""
    found = 0
    while found < 60:
        first, second = small_sheets(chance)
        k = chance.below(4)
        answer = connect(PAPER, first, second, k, bytes(ROOM), [MARKED] * RECORDS).answer
        if answer.number not in (0, 12) or answer.situations < 2:
            continue
        found += 1
        situations, length = answer.situations, answer.plan_length
        for records in (situations, situations - 1, 1, 0):
            yield framed(f"{records} records for {situations}", first, second, k, records)
        for room in sorted({length, max(length - 1, 0), 0}):
            yield framed(f"{room} bytes for {length}", first, second, k, situations, room)


def many_situations():
    """As many situations as there are buffers, at the edge of 4,096."""
    for n, k, records in ((3, 3, 4096), (3, 3, 4095), (3, 3, 4097), (6, 1, 4096), (7, 1, 5000)):
        every = [*range(7, 7 + n), *range(n)]
        loop = state([sum(1 << action for action in every)], [0] * 2 * n)
        sheet = write_sheet(Contract(n, SERVICE, (loop,)))
        yield framed(f"all buffers, n {n}, k {k}", sheet, sheet, k, records, 0)


def refused(chance):
    """Refusals 1 to 10, alone and one behind another."""
    for i in range(120):
        first, second = small_sheets(chance)
        yield framed(f"first sheet changed {i}", changed(chance, first), second, chance.below(5))
        yield framed(f"second sheet changed {i}", first, changed(chance, second), chance.below(5))
    for i in range(60):
        first, second = careless_sheet(chance), careless_sheet(chance)
        yield framed(f"two careless sheets {i}", first, second, chance.below(6))
    for i in range(60):
        sheets = []
        for _ in range(2):
            shape = small_shape(chance, chance.pick([2, 2, 3]))
            sheets.append(write_sheet(random_contract(chance, shape, chance.pick([SERVICE, SERVICE, CLIENT]))))
        yield framed(f"roles and names {i}", *sheets, chance.pick([0, 1, 4]))
    for k in (4, 5, 128, 255):
        yield framed(f"k {k}", *small_sheets(chance), k)
    for i in range(12):
        first, second = small_sheets(chance)
        yield framed(f"second sheet empty {i}", first, b"", 0)
        yield framed(f"first sheet empty {i}", b"", second, 0)


def kind_of(answer):
    """What a decided pair is a case of; None for one of no interest."""
    if answer.number == 0 and answer.situations > 2:
        return "connects" if answer.rounds == 0 else "connects after removal"
    if answer.number == 12 and answer.situations > 1:
        return "no adapter" if answer.rounds == 1 else "no adapter after rounds"
    return None


#: Of each k and kind.
WANTED = {"connects": 150, "connects after removal": 100, "no adapter": 100, "no adapter after rounds": 150}


def decided(chance):
    """As many pairs of each kind as wanted, at each k, and a few of any kind."""
    for k in range(4):
        left = dict(WANTED)
        while any(left.values()):
            first, second = small_sheets(chance)
            kind = kind_of(connect(PAPER, first, second, k, bytes(ROOM), [MARKED] * RECORDS).answer)
            if left.get(kind, 0) > 0:
                left[kind] -= 1
                yield framed(f"{kind}, k {k}", first, second, k)
        for i in range(50):
            yield framed(f"pair {i}, k {k}", *small_sheets(chance), k)


def untidy(chance):
    """Masks out of order and with forbidden bits, in either sheet and in both."""
    for i in range(12):
        first, second = small_sheets(chance)
        yield framed(f"first sheet untidy {i}", untidy_sheet(chance), second, chance.below(5))
        yield framed(f"second sheet untidy {i}", first, untidy_sheet(chance), chance.below(5))
        yield framed(f"two untidy sheets {i}", untidy_sheet(chance), untidy_sheet(chance), chance.below(5))


def paper_cases():
    chance = Chance(SEED)
    yield from named_cases()
    yield from many_situations()
    yield from limits(chance)
    yield from refused(chance)
    yield from decided(chance)
    yield from untidy(chance)


def faulty():
    """Each kind of byte at fault, in one mode or the other."""
    for i, (label, first, second) in enumerate(faulty_pairs(SERVICE, SERVICE)):
        yield framed(label, first, second, i % 5, 3, 9, i % 2)


def cases():
    """The paper's mode, then the settled one with some pairs in both, then
    bytes at fault; of the latter two no case twice."""
    seen = set()
    for case in paper_cases():
        seen.add(case.data)
        yield case
    for case in (*settled_pairs(), *random_settled_pairs(Chance(SETTLED_SEED)), *faulty()):
        if case.data not in seen:
            seen.add(case.data)
            yield case
