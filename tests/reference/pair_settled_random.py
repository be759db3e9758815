"""Random pairs in the settled mode, chosen by what the two modes make of
them."""

from typing import NamedTuple

from .actions import takes
from .moves import START
from .pairs import framed, small_shape
from .plans import Plan, write_plan
from .random_contracts import may_end, random_contract, resembling
from .relation import PAPER, SETTLED, Mode, kept_after_rounds, plan_rows, reached, waits_at_an_end
from .sheets import SERVICE, write_sheet

#: More situations than these are not looked at; and more bytes than their
#: plans have.
MOST, ROOM = 120, 6000


class Outcome(NamedTuple):
    """What a mode makes of a pair; the plan's bytes are None if there is no
    adapter."""

    plan: bytes
    rounds: int
    kept: set


def takes_and_may_end(contract):
    """Whether something may wait for a service that the contract has left."""
    taken = any(takes(action) for row in contract.states for action in row.successor)
    return taken and any(0 in row.ready for row in contract.states)


def ending_pair(chance):
    """Two contracts over the same names, for two in three alike, in which
    more states may end."""
    while True:
        shape = small_shape(chance, chance.pick([1, 1, 2, 2, 2, 3]))
        old = may_end(chance, random_contract(chance, shape, SERVICE))
        if takes_and_may_end(old):
            alike = resembling(chance, shape, old)
            new = random_contract(chance, shape, SERVICE) if chance.one_in(3) else alike
            return old, may_end(chance, new)


def outcomes(old, new, k):
    """The situations and the outcome in each mode; None if they are many."""
    situations = reached(old, new, k, MOST)
    if situations is None:
        return None
    found = {}
    for mode in Mode:
        kept, rounds = kept_after_rounds(mode, old, new, situations)
        plan = write_plan(Plan(old.n, k, plan_rows(situations, kept))) if START in kept else None
        found[mode] = Outcome(plan, rounds, kept)
    return situations, found


def kind_of(old, situations, found):
    """What a pair is a case of."""
    paper, settled = found[PAPER], found[SETTLED]
    waits = any(waits_at_an_end(at.buffer, old.states[at.old].ready) for at in settled.kept)
    if paper.plan is None:
        return "no adapter in either mode" if paper.rounds == settled.rounds else "no adapter, other rounds"
    if settled.plan is None:
        return "no adapter settled"
    if paper.plan != settled.plan:
        return "fewer moves settled"
    if paper.rounds != settled.rounds:
        return "the same plan, other rounds"
    if waits:
        return "the same plan, though something waits at an end"
    return "nothing waits at an end" if len(situations) > 2 else None


#: Of each kind at k 1 to 3.
WANTED = {
    "no adapter settled": 32,
    "fewer moves settled": 32,
    "the same plan, though something waits at an end": 20,
    "the same plan, other rounds": 2,
    "nothing waits at an end": 4,
    "no adapter, other rounds": 20,
    "no adapter in either mode": 5,
}

#: At k 0 nothing ever waits.
WANTED_BARE = {"nothing waits at an end": 20, "no adapter in either mode": 20}


def chosen(chance, k, wanted):
    """As many pairs of each kind as wanted: kind, old, new."""
    left = dict(wanted)
    while any(left.values()):
        old, new = ending_pair(chance)
        decided = outcomes(old, new, k)
        kind = None if decided is None else kind_of(old, *decided)
        if left.get(kind, 0) > 0:
            left[kind] -= 1
            yield kind, old, new, decided


def decided(chance):
    for k in range(4):
        for kind, old, new, _ in chosen(chance, k, WANTED if k else WANTED_BARE):
            yield framed(f"{kind}, k {k}", write_sheet(old), write_sheet(new), k, room=ROOM, mode=SETTLED)


def limits(chance):
    """Pairs on which the modes differ, with exactly enough lent and less; the
    shorter plan of the settled mode where the paper's has no room."""
    for k in range(1, 4):
        for kind, old, new, (situations, found) in chosen(chance, k, {"no adapter settled": 1, "fewer moves settled": 3}):
            first, second, count = write_sheet(old), write_sheet(new), len(situations)
            for records in (count, count - 1, 1, 0):
                yield framed(f"{kind}, {records} records for {count}", first, second, k, records, ROOM, SETTLED)
            length = len(found[SETTLED].plan or b"")
            for room in sorted({length, max(length - 1, 0), 0}):
                label = f"{kind}, {room} bytes for {length}"
                yield framed(label, first, second, k, count, room, SETTLED)
            yield framed(f"{kind}, the paper's with {length} bytes", first, second, k, count, length, PAPER)


def random_settled_pairs(chance):
    yield from decided(chance)
    yield from limits(chance)
