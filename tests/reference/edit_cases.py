"""Plans edited by hand, to be checked.

A case is: number of lent records (16 bits); the mode (one byte); the old sheet
and the new one, each behind its length (16 bits); the plan to the end.  Before
each call no record of the work table is zero.

Its line is, of the check: number, sheet, state, offset; how many lent records
are zero after it, and how many are as they were.  Then, of the fault, asked for with
the same arguments and whatever the check answers: condition, code, ready set,
plan state; the fourteen counts; old state, new state; how many lent records
are zero after it, and how many are as they were.
"""

from .chance import Chance
from .connecting import ZERO_RECORD
from .edit_edges import PLANS, edges
from .edit_limits import limits
from .edit_random import random_edits
from .edit_settled import settled_edges
from .edit_settled_random import random_settled_edits
from .edits import MARKED, framed, parts
from .plan_checks import check_plan
from .sheet_faults import faulty_pairs
from .sheets import SERVICE

SEED, SETTLED_SEED = 20100908, 20100910


def called(data):
    """The call that a case describes."""
    records, mode, old, new, plan = parts(data)
    return check_plan(mode, old, new, plan, [MARKED] * records)


def expected(data):
    answer, fault, table = called(data)
    lent = [table.count(ZERO_RECORD), table.count(MARKED)]
    figures = [answer.number, answer.sheet, answer.state, answer.offset, *lent, *fault.figures(), *lent]
    return " ".join(map(str, figures)) + "\n"


def group(data):
    """The number, the mode, and for 21 the condition."""
    answer, fault, _ = called(data)
    mode = parts(data)[1].name.lower()
    condition = f" condition {fault.condition}" if answer.number == 21 else ""
    return f"{answer.number:2} {mode}{condition}"


def paper_cases():
    """Every edge and limit, then random edits."""
    yield from edges()
    yield from limits()
    yield from random_edits(Chance(SEED))


def settled_cases():
    """The same in the settled mode, some of them in the paper's too."""
    yield from settled_edges()
    yield from random_settled_edits(Chance(SETTLED_SEED))


def faulty_sheets():
    """Each kind of byte at fault in a sheet, in one mode or the other, before
    each kind of plan."""
    plans = list(PLANS.values())
    for i, (label, old, new) in enumerate(faulty_pairs(SERVICE, SERVICE)):
        yield framed(label, old, new, plans[i // 2 % len(plans)], 2, i % 2)


def cases():
    """The paper's mode, then the settled one, then sheets with bytes at
    fault; no case twice."""
    seen = set()
    for case in (*paper_cases(), *settled_cases(), *faulty_sheets()):
        if case.data not in seen:
            seen.add(case.data)
            yield case
