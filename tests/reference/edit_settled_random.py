"""Random edits in the settled mode: of settled plans, and of the paper's."""

from .edit_random import (
    add,
    copy_row,
    damaged,
    edited,
    number_of,
    other_rank,
    pairs_of,
    recode,
    redirect,
    split_state,
    strike,
    struck_until_unsound,
    system,
)
from .edits import codes_over, framed
from .pair_settled_random import ending_pair
from .plans import Plan, write_plan
from .relation import PAPER, SETTLED
from .sheet_random import changed
from .sheets import write_sheet


def ending_system(chance, least=2, mode=SETTLED):
    """Two contracts of which the old one may end, and the plan that connects
    them."""
    return system(chance, least, mode, ending_pair)


def of_the_paper(chance):
    """Plans of the paper's mode, as emitted and edited."""
    for i in range(75):
        old, new, plan = ending_system(chance, mode=PAPER)
        yield framed(f"the paper's {i}", old, new, plan, mode=SETTLED)
        if i % 3 == 0:
            yield framed(f"the paper's {i}, edited", old, new, edited(chance, plan), mode=SETTLED)


def as_emitted(chance):
    """With exactly enough records, and one less; and by the paper's mode."""
    for i in range(20):
        old, new, plan = ending_system(chance)
        for records in (len(plan.rows), len(plan.rows) - 1):
            yield framed(f"emitted {i}, {records} records", old, new, plan, records, SETTLED)
        yield framed(f"emitted {i}, paper", old, new, plan, len(plan.rows), PAPER)


def edited_once(chance):
    """An edit of each kind, with enough records."""
    for kind, number in [
        (strike, 40),
        (add, 15),
        (redirect, 25),
        (recode, 10),
        (copy_row, 15),
        (split_state, 5),
        (other_rank, 10),
    ]:
        for i in range(number):
            old, new, plan = ending_system(chance)
            yield framed(f"{kind.__name__} {i}", old, new, kind(chance, plan), mode=SETTLED)


def edited_more(chance):
    """Some edits; exactly enough records, one less, more."""
    for i in range(15):
        old, new, plan = ending_system(chance)
        plan = edited(chance, plan)
        pairs = pairs_of(old, new, plan)
        if pairs is not None:
            for records in sorted({pairs, pairs - 1, pairs + chance.between(1, 9)}):
                yield framed(f"edited {i}, {records} records for {pairs}", old, new, plan, records, SETTLED)


def struck_too_many(chance):
    """Of systems whose old contract may end, in the settled mode."""
    yield from struck_until_unsound(chance, ending_system, SETTLED, 25)


def undelivered(chance):
    """Edits of settled plans that the paper's mode accepts, and the settled
    one does not."""
    found = 0
    while found < 30:
        old, new, plan = ending_system(chance, 3)
        other = chance.pick((strike, strike, redirect, copy_row))(chance, plan)
        if number_of(PAPER, old, new, other) == 0 and number_of(SETTLED, old, new, other) == 21:
            found += 1
            yield framed(f"undelivered {found}", old, new, other, mode=SETTLED)


def random_rows(chance):
    """Plans that nothing emitted."""
    for i in range(30):
        old, new = ending_pair(chance)
        codes, count = codes_over(old.n), chance.between(1, 5)
        rows = [
            [(code, chance.below(count)) for code in sorted({chance.pick(codes) for _ in range(chance.below(6))})]
            for _ in range(count)
        ]
        plan = Plan(old.n, chance.below(4), rows)
        yield framed(f"random rows {i}", old, new, plan, chance.pick([1, 5, 20, 100, 300]), SETTLED)


def damaged_bytes(chance):
    """Bytes of the plan or of a sheet changed."""
    for i in range(16):
        old, new, plan = ending_system(chance)
        old, new, plan = write_sheet(old), write_sheet(new), write_plan(edited(chance, plan))
        yield framed(f"plan damaged {i}", old, new, damaged(chance, plan), 60, SETTLED)
        if i % 2 == 0:
            yield framed(f"first sheet damaged {i}", changed(chance, old), new, plan, 60, SETTLED)
            yield framed(f"second sheet damaged {i}", old, changed(chance, new), plan, 60, SETTLED)


def random_settled_edits(chance):
    yield from of_the_paper(chance)
    yield from as_emitted(chance)
    yield from edited_once(chance)
    yield from edited_more(chance)
    yield from struck_too_many(chance)
    yield from undelivered(chance)
    yield from random_rows(chance)
    yield from damaged_bytes(chance)
