"""The connecting of two sheets: the whole answer, and what is lent
afterwards (document 01, "Which pairs connect", "Refusals and their order";
document 02, requests 5/13 and 6/13)."""

from typing import NamedTuple

from .moves import EMPTY, MOST_RANK, START, Situation
from .plans import Plan, write_plan
from .relation import kept_after_rounds, plan_rows, reached
from .sheets import SERVICE, Refusal, read_sheet

ZERO_RECORD = Situation(EMPTY, 0, 0)


class Answer(NamedTuple):
    """The offset is that of the byte at fault: "refusals 4 to 7 carry it
    beside the state, all others 0" (document 02, request 6/13)."""

    number: int
    sheet: int = 0
    state: int = 0
    offset: int = 0
    situations: int = 0
    plan_states: int = 0
    rounds: int = 0
    plan_length: int = 0


class Afterwards(NamedTuple):
    """The answer of a call, the lent plan and the lent work table after it."""

    answer: Answer
    plan: bytes
    table: list


def read_two(first, second, roles):
    """Refusals 1 to 9: two contracts and None, or an Answer behind them."""
    contracts = []
    for place, sheet in ((1, first), (2, second)):
        read = read_sheet(sheet)
        if isinstance(read, Refusal):
            return None, None, Answer(read.number, place, read.state, read.offset)
        contracts.append(read)
    for place in (1, 2):
        if contracts[place - 1].role != roles[place - 1]:
            return None, None, Answer(8, place)
    if contracts[0].n != contracts[1].n:
        return None, None, Answer(9)
    return contracts[0], contracts[1], None


def connect(mode, first, second, k, lent_plan, table):
    """Connects the old contract's sheet with the new one's at rank k, in the
    paper's mode or the settled one."""
    lent_plan, table = bytes(lent_plan), list(table)
    old, new, refused = read_two(first, second, (SERVICE, SERVICE))
    if refused is None and k > MOST_RANK:
        refused = Answer(10)
    if refused is not None:
        return Afterwards(refused, lent_plan, table)
    cleared = [ZERO_RECORD] * len(table)
    situations = reached(old, new, k, len(table))
    if situations is None:
        return Afterwards(Answer(11), lent_plan, cleared)
    kept, rounds = kept_after_rounds(mode, old, new, situations)
    if START not in kept:
        answer = Answer(12, situations=len(situations), rounds=rounds)
        return Afterwards(answer, lent_plan, cleared)
    rows = plan_rows(situations, kept)
    plan = write_plan(Plan(old.n, k, rows))
    counts = Answer(0, situations=len(situations), plan_states=len(rows), rounds=rounds)
    if len(plan) > len(lent_plan):
        return Afterwards(counts._replace(number=13), lent_plan, cleared)
    answer = counts._replace(plan_length=len(plan))
    return Afterwards(answer, plan + lent_plan[len(plan) :], cleared)
