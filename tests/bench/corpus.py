"""Writes the benchmark's inputs: `python3 -m tests.bench.corpus FOLDER` from the repository's root.

Four files, `inputs`, `random`, `settled` and `plans`, of records that follow one
another: name (8-bit length and that many bytes); lent records (16 bits); lent
plan bytes (32 bits); k (8 bits); the old sheet and the new one, each behind its
length (16 bits).  Numbers are little-endian.  The names of random pairs are
empty.  The pairs of `settled` are connected in both modes, with the same answer.
The pairs of `plans` are connected, and then their plans checked.  Two files,
`choosing` and `random-choosing`, are of the records that choosing_corpus.py
has, two, `clients` and `random-clients`, of those of clients_corpus.py, two,
`rows` and `random-rows`, of those of rows_corpus.py, and one, `random-plans`,
of those of plans_corpus.py.  Two, `texts` and `random-texts`, are of those of
texts_corpus.py.  Every run writes the same bytes.
"""

import sys
from pathlib import Path
from typing import NamedTuple

from tests.bench import choosing_corpus, clients_corpus, plans_corpus, rows_corpus, texts_corpus
from tests.bench.shop import NAMES, NO_RECEIPT, PAYMENT_FIRST, SHOP
from tests.reference.actions import mask_of as mask
from tests.reference.chance import Chance
from tests.reference.pair_cases import small_sheets
from tests.reference.random_contracts import Shape, random_contract, resembling
from tests.reference.framing import measured, number_bytes
from tests.reference.sheet_random import careless_sheet, changed
from tests.reference.sheets import CLIENT, SERVICE, Contract, state, write_sheet

MOST_RECORDS = 4096
LONGEST_PLAN = MOST_RECORDS * (1 + 42 * 3) + 4 * MOST_RECORDS + 8
RANDOM_PAIRS = 10000
SEED = 20100905


class Input(NamedTuple):
    name: str
    k: int
    old: bytes
    new: bytes
    records: int = MOST_RECORDS
    room: int = LONGEST_PLAN

    def data(self):
        name = self.name.encode()
        lent = number_bytes(self.records) + number_bytes(self.room, 4)
        return bytes([len(name)]) + name + lent + bytes([self.k]) + measured(self.old) + measured(self.new)


def sheet(n, states):
    return write_sheet(Contract(n, SERVICE, tuple(states)))


def every_action(n):
    return mask(*range(n), *range(7, 7 + n))


# Pairs as they stand in an editor.


def editor():
    shop, payment_first, no_receipt = (sheet(NAMES, states) for states in (SHOP, PAYMENT_FIRST, NO_RECEIPT))
    yield Input("editor, the same", 0, shop, shop, 1024, 32768)
    yield Input("editor, payment first", 1, shop, payment_first, 1024, 32768)
    yield Input("editor, no receipt", 1, shop, no_receipt, 1024, 32768)


# Random pairs, each from a seed of its own that was chosen for what it gives.


def alike(seed, shape):
    chance = Chance(seed)
    old = random_contract(chance, shape, SERVICE)
    return write_sheet(old), write_sheet(resembling(chance, shape, old))


HUNDREDS, MORE_HUNDREDS = Shape(3, 6, 3, 4, 8, 4), Shape(3, 8, 2, 3, 8, 6)
THOUSAND, MORE_THOUSAND = Shape(3, 3, 4, 8, 30, 2), Shape(4, 6, 2, 8, 30, 5)
THOUSANDS = Shape(4, 5, 3, 10, 30, 4)


def chosen():
    yield Input("hundreds, all stay", 2, *alike(170, HUNDREDS))
    yield Input("hundreds, some stay", 1, *alike(117, MORE_HUNDREDS))
    yield Input("hundreds, no adapter", 1, *alike(24, MORE_HUNDREDS))
    yield Input("a thousand, most stay", 3, *alike(372, THOUSAND))
    yield Input("a thousand, no adapter", 1, *alike(286, MORE_THOUSAND))
    yield Input("four thousand, most stay", 1, *alike(641, THOUSANDS))
    yield Input("four thousand, no adapter", 1, *alike(599, THOUSANDS))


# Every buffer with every pair of states is reached: all states offer all
# actions in one ready set, and different actions lead on in the two contracts.


def dense(n, count, leads_on):
    return sheet(n, [state([every_action(n)], [(s + leads_on(j)) % count for j in range(2 * n)]) for s in range(count)])


def dense_pair(n, old, new):
    return dense(n, old, lambda j: j % 2), dense(n, new, lambda j: j // 2 % 2)


def every_buffer():
    for old, new in ((1, 1), (2, 1), (2, 2), (4, 2), (4, 4)):
        yield Input(f"dense, {256 * old * new}", 1, *dense_pair(4, old, new))
    for n in (5, 6):
        yield Input(f"one state each, n {n}", 1, *dense_pair(n, 1, 1))


def capacity():
    for records in (1024, 4096):
        yield Input(f"capacity, {records}", 3, *dense_pair(7, 1, 1), records)


# Sheets of full size: 64 states, 8 ready sets, 14 actions.


def full_size(chance, old):
    """Each ready set of a new state has the last action.  An old state has a
    ready set of that action alone, behind seven others."""
    last, others = 13, range(13)
    states = []
    for _ in range(64):
        ready = {mask(last), mask(*others)} if old else {mask(*others, last)}
        while len(ready) < 8:
            some = mask(*chance.some(others))
            if some.bit_count() > 5:
                ready.add(some if old else some | mask(last))
        states.append(state(ready, [chance.below(64) for _ in range(14)]))
    return states


def with_noise(row):
    """The state with its masks falling, and bit 15 in the last of them."""
    return row._replace(ready=(*row.ready[:0:-1], row.ready[0] | mask(15)))


def as_client(service):
    """The sheet in the other role: it is read whole, then refused."""
    return service[:-2] + bytes([CLIENT]) + service[-1:]


def full_sheets():
    chance = Chance(SEED)
    old, states = sheet(7, full_size(chance, True)), full_size(chance, False)
    new = sheet(7, states)
    yield Input("full sheets, k 0", 0, old, new)
    yield Input("full sheets, k 1, 11", 1, old, new)
    late = bytearray(new)
    late[-6 - 128 - 1] = 64
    yield Input("full sheets, 6 in the last state", 0, old, sheet(7, [*states[:-1], with_noise(states[-1])]))
    yield Input("full sheets, 7 in the last state", 0, old, bytes(late))
    yield Input("full sheets, 8", 0, as_client(old), new)
    yield Input("full sheets, 10", 4, old, new)


# Two cycles of coprime lengths make one cycle of situations.  One of them
# fails, where both last states meet, and each round removes the one before.


def cycle(n, count, ready, last):
    rows = [ready] * (count - 1) + [last]
    return sheet(n, [state(row, [(s + 1) % count] * sum(row).bit_count()) for s, row in enumerate(rows)])


def ring(name, n, usual, length):
    """The usual actions go on in every state.  The last state of the new
    contract may want b instead, which all old states but the last accept."""
    b = mask(1)
    old = cycle(n, length, [usual, b], [usual])
    new = cycle(n, length - 1, [usual], [usual, b])
    return Input(f"{name}, {length * (length - 1)}", 0, old, new)


def rounds():
    for length in (16, 32, 64):
        yield ring("ring", 2, mask(0), length)
    for length in (16, 64):
        yield ring("wide ring", 7, every_action(7) & ~mask(1), length)


def inputs():
    yield from editor()
    yield from chosen()
    yield from every_buffer()
    yield from rounds()
    yield from capacity()
    yield from full_sheets()


# Pairs connected in both modes.  Where the old contract may end in every state,
# the second part of the settled test is asked wherever a message waits for the
# service; the new one takes it.


def may_end():
    for count in (1, 2, 4):
        every = every_action(4)
        old = sheet(4, [state([0, every], [(s + j % 2) % count for j in range(8)]) for s in range(count)])
        new = dense(4, count, lambda j: j // 2 % 2)
        yield Input(f"dense, may end, {256 * count * count}", 1, old, new)


def settled():
    """Those above in which no situation tells the modes apart, of a family the
    largest; and those whose old contract may end."""
    apart = ("editor, payment first", "hundreds, all stay", "hundreds, no adapter")
    largest = ("dense, 4096", "one state each, n 6", "ring, 4032", "wide ring, 4032")
    yield from (one for one in (*editor(), *chosen()) if one.name not in apart)
    yield from (one for one in (*every_buffer(), *rounds()) if one.name in largest)
    yield from may_end()


# Pairs whose plans are checked.  The rows of the last family have more and more
# moves, all of which lead to the same state; nothing else changes.


def rows_of_moves():
    for moves in (1, 2, 4, 8, 14):
        ready = [mask(*range(moves))]
        yield Input(f"rows of moves, {moves}", 0, cycle(7, 64, ready, ready), cycle(7, 63, ready, ready))


def plans():
    """Those above that connect, and the rows of moves."""
    refused = ("editor, no receipt", "hundreds, no adapter", "a thousand, no adapter", "four thousand, no adapter")
    yield from (one for one in (*editor(), *chosen(), *every_buffer()) if one.name not in refused)
    yield from rows_of_moves()


def random_sheets(chance):
    """Small pairs, damaged ones, and one in 50 of some hundred situations."""
    if chance.one_in(50):
        return alike(chance.number(), MORE_HUNDREDS)
    old, new = small_sheets(chance)
    kind = chance.below(16)
    if kind == 0:
        return changed(chance, old), new
    if kind == 1:
        return old, changed(chance, new)
    if kind == 2:
        return careless_sheet(chance), careless_sheet(chance)
    return old, new


def random_pairs():
    """Random sheets, some with little lent, some with a k too high."""
    chance = Chance(SEED)
    for _ in range(RANDOM_PAIRS):
        old, new = random_sheets(chance)
        k = chance.below(6) if chance.one_in(16) else chance.below(4)
        records = chance.below(20) if chance.one_in(8) else chance.pick([300, 1024, 4096])
        room = chance.below(200) if chance.one_in(8) else 32768
        yield Input("", k, old, new, records, room)


def main(folder):
    folder.mkdir(parents=True, exist_ok=True)
    for name, made in (
        ("inputs", inputs()),
        ("random", random_pairs()),
        ("settled", settled()),
        ("plans", plans()),
        ("random-plans", plans_corpus.random_inputs()),
        ("clients", clients_corpus.inputs()),
        ("random-clients", clients_corpus.random_inputs()),
        ("choosing", choosing_corpus.inputs()),
        ("random-choosing", choosing_corpus.random_inputs()),
        ("texts", texts_corpus.inputs()),
        ("random-texts", texts_corpus.random_inputs()),
        ("rows", rows_corpus.inputs()),
        ("random-rows", rows_corpus.random_inputs()),
    ):
        data = b"".join(one.data() for one in made)
        (folder / name).write_bytes(data)
        print(f"{folder / name}: {len(data)} bytes")


if __name__ == "__main__":
    main(Path(sys.argv[1]))
