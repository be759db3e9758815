"""What cases of edited plans are made of: emitted plans, and edits of them."""

from .actions import name_of
from .cases import CASES
from .connecting import connect
from .framing import Framed, measured, mode_of, number_bytes
from .moves import CODES, Situation, range_of
from .plans import Plan, read_plan, write_plan
from .relation import PAPER
from .sheets import SERVICE, Contract, write_sheet

MARKED = Situation((1,) * 14, 1, 1)

#: What is lent where it is not to matter.
RECORDS, ROOM = 300, 60000


def framed(label, old, new, plan, records=RECORDS, mode=PAPER):
    """A case; contracts and plans may be given as such or as bytes, the mode
    as any byte."""
    old, new = (write_sheet(sheet) if isinstance(sheet, Contract) else sheet for sheet in (old, new))
    plan = write_plan(plan) if isinstance(plan, Plan) else plan
    return Framed(label, number_bytes(records) + bytes([mode]) + measured(old) + measured(new) + plan)


def parts(data):
    """The lent records, the mode, the two sheets and the plan of a case."""
    records, mode, data = int.from_bytes(data[:2], "little"), mode_of(data[2]), data[3:]
    sheets = []
    for _ in range(2):
        behind = 2 + int.from_bytes(data[:2], "little")
        sheets.append(data[2:behind])
        data = data[behind:]
    return records, mode, *sheets, data


def service(n, *states):
    return Contract(n, SERVICE, states)


def emitted(old, new, k, records=RECORDS, mode=PAPER):
    """The plan that connects two contracts, or None."""
    after = connect(mode, write_sheet(old), write_sheet(new), k, bytes(ROOM), [MARKED] * records)
    if after.answer.number != 0:
        return None
    return read_plan(after.plan[: after.answer.plan_length])


def emitted_cases(mode=PAPER):
    """Those of M1 to M13 that connect: name, old, new, plan."""
    for case in CASES:
        old, new = case.contracts()
        plan = emitted(old, new, case.k, mode=mode)
        if plan is not None:
            yield case.name, old, new, plan


# Edits, each of one thing


def with_row(plan, state, row):
    return plan._replace(rows=[*plan.rows[:state], sorted(row), *plan.rows[state + 1 :]])


def without_move(plan, state, code):
    return with_row(plan, state, [move for move in plan.rows[state] if move[0] != code])


def with_move(plan, state, code, after):
    """The move added, or instead of the one with that code."""
    others = [move for move in plan.rows[state] if move[0] != code]
    return with_row(plan, state, [*others, (code, after)])


def moves_in(plan):
    """Every move: state, code, next state."""
    return [(state, code, after) for state, row in enumerate(plan.rows) for code, after in row]


def codes_over(n):
    """The codes with a name below n, ascending."""
    return [code for code in CODES if name_of(code - range_of(code)) < n]


def codes_missing(plan, state):
    """The codes over the plan's names that a row does not hold."""
    held = [code for code, _ in plan.rows[state]]
    return [code for code in codes_over(plan.n) if code not in held]
