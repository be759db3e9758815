"""Random pairs, and random edits of the plans that they are given."""

from .edits import MARKED, codes_missing, codes_over, emitted, framed, moves_in, with_move, with_row, without_move
from .pairs import small_pair
from .plan_checks import check_plan, read_all, reached_pairs
from .plans import Plan, write_plan
from .relation import PAPER
from .sheet_random import changed, lengthened, shortened, untidy_sheet
from .sheets import write_sheet

MOST_ROWS = 30


def system(chance, least=2, mode=PAPER, pair=small_pair):
    """Two contracts and the plan that connects them, of some states."""
    while True:
        old, new = pair(chance)
        plan = emitted(old, new, chance.below(4), mode=mode)
        if plan is not None and least <= len(plan.rows) <= MOST_ROWS:
            return old, new, plan


# Edits; each gives the plan after one


def strike(chance, plan):
    moves = moves_in(plan)
    if not moves:
        return plan
    state, code, _ = chance.pick(moves)
    return without_move(plan, state, code)


def add(chance, plan):
    state = chance.below(len(plan.rows))
    missing = codes_missing(plan, state)
    if not missing:
        return plan
    return with_move(plan, state, chance.pick(missing), chance.below(len(plan.rows)))


def redirect(chance, plan):
    moves = moves_in(plan)
    if not moves:
        return plan
    state, code, _ = chance.pick(moves)
    return with_move(plan, state, code, chance.below(len(plan.rows)))


def recode(chance, plan):
    """A move under another code."""
    moves = moves_in(plan)
    if not moves:
        return plan
    state, code, after = chance.pick(moves)
    return with_move(without_move(plan, state, code), state, chance.pick(codes_over(plan.n)), after)


def copy_row(chance, plan):
    """A row in another's place."""
    rows = plan.rows
    return with_row(plan, chance.below(len(rows)), rows[chance.below(len(rows))])


def split_state(chance, plan):
    """A row twice, some of the moves there leading to the second: an edit
    that does no harm."""
    twice, last = chance.below(len(plan.rows)), len(plan.rows)

    def led(after):
        return last if after == twice and chance.one_in(2) else after

    rows = [[(code, led(after)) for code, after in row] for row in plan.rows]
    return plan._replace(rows=[*rows, rows[twice]])


def other_rank(chance, plan):
    return plan._replace(k=chance.below(4))


EDITS = (strike, strike, strike, add, add, redirect, redirect, recode, copy_row, split_state, other_rank)


def edited(chance, plan):
    """A plan after one to three edits."""
    for _ in range(chance.pick([1, 1, 2, 3])):
        plan = chance.pick(EDITS)(chance, plan)
    return plan


def pairs_of(old, new, plan):
    """How many pairs there are; None if no pairs are counted, or too many."""
    checked, refused = read_all(PAPER, write_sheet(old), write_sheet(new), write_plan(plan))
    found = None if refused is not None else reached_pairs(checked, 300)
    return None if found is None else len(found)


def number_of(mode, old, new, plan, records=300):
    """What the check answers."""
    sheets = write_sheet(old), write_sheet(new)
    return check_plan(mode, *sheets, write_plan(plan), [MARKED] * records).answer.number


def as_emitted(chance):
    """With exactly enough records, and one less."""
    for i in range(80):
        old, new, plan = system(chance)
        for records in (len(plan.rows), len(plan.rows) - 1):
            yield framed(f"emitted {i}, {records} records", old, new, plan, records)


def edited_once(chance):
    """An edit of each kind, with enough records."""
    for kind, number in ((strike, 130), (add, 110), (redirect, 110), (recode, 40), (copy_row, 40), (split_state, 40)):
        for i in range(number):
            old, new, plan = system(chance)
            yield framed(f"{kind.__name__} {i}", old, new, kind(chance, plan))
    for i in range(40):
        old, new, plan = system(chance)
        yield framed(f"another k {i}", old, new, other_rank(chance, plan))


def edited_more(chance):
    """Some edits; exactly enough records, one less, fewer, more."""
    for i in range(110):
        old, new, plan = system(chance)
        plan = edited(chance, plan)
        pairs = pairs_of(old, new, plan)
        if pairs is None:
            yield framed(f"edited {i}", old, new, plan, 40)
            continue
        for records in sorted({pairs, pairs - 1, chance.below(pairs + 1), pairs + chance.between(1, 9)}):
            yield framed(f"edited {i}, {records} records for {pairs}", old, new, plan, records)


def struck_until_unsound(chance, made, mode, wanted):
    """Moves struck out one after the other: the last plan that still holds,
    and the first that does not; of systems that `made` gives, for a mode."""
    found = 0
    while found < wanted:
        old, new, plan = made(chance, 3)
        before = plan
        while plan.rows != [[]] * len(plan.rows):
            before, plan = plan, strike(chance, plan)
            if number_of(mode, old, new, plan) == 21:
                found += 1
                yield framed(f"holds {found}", old, new, before, mode=mode)
                yield framed(f"one move less {found}", old, new, plan, mode=mode)
                break


def struck_too_many(chance):
    """Of any systems, in the paper's mode."""
    yield from struck_until_unsound(chance, system, PAPER, 70)


def still_sound(chance):
    """Edited plans that are accepted though moves were struck out or states
    split, each a little more edited than the one before."""
    found = 0
    while found < 120:
        old, new, plan = system(chance, 3)
        for _ in range(12):
            other = chance.pick((strike, strike, split_state, redirect, add))(chance, plan)
            if other == plan:
                continue
            if number_of(PAPER, old, new, other, 60) == 0:
                plan = other
                found += 1
                if found % 3 == 0:
                    yield framed(f"still sound {found}", old, new, plan, 60)


def of_another_pair(chance):
    """The plan of one pair with the sheets of another."""
    found = 0
    while found < 70:
        (old, new, _), (other, _, plan) = system(chance), system(chance)
        if other.n == old.n or found % 7 == 0:
            found += 1
            yield framed(f"of another pair {found}", old, new, plan)


def random_rows(chance):
    """Plans that nothing emitted."""
    for i in range(120):
        old, new = small_pair(chance)
        codes, count = codes_over(old.n), chance.between(1, 5)
        rows = [
            [(code, chance.below(count)) for code in sorted({chance.pick(codes) for _ in range(chance.below(6))})]
            if codes
            else []
            for _ in range(count)
        ]
        plan = Plan(old.n, chance.below(4), rows)
        yield framed(f"random rows {i}", old, new, plan, chance.pick([1, 5, 20, 100, 300]))


def damaged(chance, data):
    return chance.pick((changed_byte, shortened, lengthened))(chance, data)


def changed_byte(chance, data):
    at = chance.below(len(data))
    return data[:at] + bytes([data[at] ^ chance.between(1, 255)]) + data[at + 1 :]


def damaged_bytes(chance):
    """Bytes of the plan, of a sheet, or of both changed."""
    for i in range(110):
        old, new, plan = system(chance)
        old, new, plan = write_sheet(old), write_sheet(new), write_plan(edited(chance, plan))
        yield framed(f"plan damaged {i}", old, new, damaged(chance, plan), 60)
        if i % 2 == 0:
            yield framed(f"first sheet damaged {i}", changed(chance, old), new, plan, 60)
            yield framed(f"second sheet damaged {i}", old, changed(chance, new), plan, 60)
        if i % 4 == 0:
            yield framed(f"sheet and plan damaged {i}", old, changed(chance, new), damaged(chance, plan), 60)
            yield framed(f"untidy {i}", untidy_sheet(chance), new, damaged(chance, plan), 60)
            yield framed(f"noise {i}", old, new, chance.data(chance.below(60)), 60)


def random_edits(chance):
    yield from as_emitted(chance)
    yield from edited_once(chance)
    yield from edited_more(chance)
    yield from struck_too_many(chance)
    yield from still_sound(chance)
    yield from of_another_pair(chance)
    yield from random_rows(chance)
    yield from damaged_bytes(chance)
