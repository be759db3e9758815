"""Clients and services whose verdict hangs on the place where a successor is
read (document 02, request 4/13): full sheets in which every two states meet,
and small sheets in which one successor byte decides.

A wrong place gives a wrong line: all verdicts but the first are no, and a
lookup one place too near or too far does not reach the pair that disagrees.
"""

from .actions import ACTIONS, MOST_NAMES, SUCCESS, mask_of, partner
from .cases import A, B, END, send
from .sheets import CLIENT, MOST_READY, MOST_STATES, SERVICE, Contract, offered, state, write_sheet

# Full sheets


def dealt(core):
    """Eight ready sets that all have the core; each other action is in one of
    them."""
    others = [1 << action for action in ACTIONS if not core >> action & 1]
    return [core | sum(others[first::MOST_READY]) for first in range(MOST_READY)]


def one_leads_on(at):
    """The successors of a state that offers everything: taking one name leads
    to the next state, and every other action stays.  The name is another one
    in the next state, so that all seven are needed on the way."""
    return [min(at + (action == at % MOST_NAMES), MOST_STATES - 1) for action in ACTIONS]


def full_sheet(role, cores):
    """64 states with eight ready sets and fourteen actions.  What one side
    takes leads it on while the other, sending it, stays: all pairs are met."""
    rows = [state(dealt(core), one_leads_on(at)) for at, core in enumerate(cores)]
    return write_sheet(Contract(MOST_NAMES, role, tuple(rows)))


def but_at(odd, odd_core, core):
    """The same core for every state but one."""
    return [odd_core if at == odd else core for at in range(MOST_STATES)]


def full_sheets():
    """Agreeing in all three ways: by what the service takes, by what it sends,
    by the success mark.  Then each of these alone, but for one pair.  Usual
    states agree with usual ones by a and with an odd one by b; two odd ones
    have neither in common."""
    ways = [mask_of(send(A)), mask_of(A), SUCCESS]
    client = full_sheet(CLIENT, [ways[at % 3] for at in range(MOST_STATES)])
    service = full_sheet(SERVICE, [mask_of(A, send(A))] * MOST_STATES)
    yield "full sheets, all pairs agree", client, service
    for name, at_client, at_service, by, usual in [
        ("what the service takes", 63, 63, (A, B), mask_of(send(A), send(B))),
        ("what the service sends", 0, 63, (send(A), send(B)), mask_of(A, B)),
        ("the success mark", 63, 0, (A, B), SUCCESS),
    ]:
        client = full_sheet(CLIENT, but_at(at_client, mask_of(partner(by[0])), usual))
        service = full_sheet(SERVICE, but_at(at_service, mask_of(by[1]), mask_of(by[0])))
        yield f"full sheets, by {name}, but for {at_client} with {at_service}", client, service


# One successor decides

#: The states of the side in question: two that agree, the one that does not,
#: and the last, whose row is in question.  No mask with one action has a
#: byte 3.
AGREES, AGREES_TOO, DISAGREES, LAST = 1, 2, 3, 4

#: What is offered beside an action.  The higher ones count only if there is to
#: be more than one ready set.
BESIDE = {
    "all lower actions": lambda action: ACTIONS,
    "no lower action": lambda action: ACTIONS[action:],
    "every second action": lambda action: ACTIONS[action % 2 :: 2],
}


def ready_sets(action, others):
    """Up to eight ready sets, all of which have the action: the first three
    other bits in every combination, each further one in one of them."""
    counted, rest = others[:3], others[3:]
    ready = []
    for number in range(2 ** len(counted)):
        chosen = [bit for place, bit in enumerate(counted) if number >> place & 1]
        ready.append(mask_of(action) | sum(chosen) | sum(rest[number::MOST_READY]))
    return ready


def row_in_question(role, action, beside, many):
    """A row in which the action alone leads to the disagreeing state.  With
    one ready set the action is the last, and the index lies behind its byte."""
    marks = [SUCCESS] if role == CLIENT else []
    others = [1 << other for other in beside if other != action and (many or other < action)]
    if many:
        ready = ready_sets(action, marks + others)
    else:
        ready = [mask_of(action) | sum(marks + others)]
    leads = [AGREES if other < action else AGREES_TOO for other in offered(ready)]
    leads[offered(ready).index(action)] = DISAGREES
    return state(ready, leads)


def side_in_question(role, action, beside, many):
    """The action leads from the start to the row in question."""
    start, agrees = (state([mask_of(action)], [after]) for after in (LAST, AGREES))
    agrees_too = state([SUCCESS], []) if role == CLIENT else state([mask_of(action)], [AGREES])
    row = row_in_question(role, action, beside, many)
    return Contract(MOST_NAMES, role, (start, agrees, agrees_too, END, row))


def other_side(role, action):
    """One state, which offers the action's partner and nothing else."""
    return Contract(MOST_NAMES, role, (state([mask_of(partner(action))], [0]),))


def one_successor_decides():
    """Each action of the service, then of the client, one ready set and
    several in turn.  The other side follows the action alone, so that the
    verdict is yes if the successor is taken from any other action's byte."""
    for role in (SERVICE, CLIENT):
        for action in ACTIONS:
            for turn, (name, beside) in enumerate(BESIDE.items()):
                many = (action + turn + role) % 2 == 1
                contract = side_in_question(role, action, beside(action), many)
                sheets = [write_sheet(contract), write_sheet(other_side(1 - role, action))]
                client, service = sheets if role == CLIENT else reversed(sheets)
                side, count = ("service", "client")[role], len(contract.states[LAST].ready)
                yield f"{side}'s action {action}, {name}, ready sets {count}", client, service


def edges():
    """No case twice: of action 0 no action is lower."""
    seen = set()
    for label, client, service in (*full_sheets(), *one_successor_decides()):
        if (client, service) not in seen:
            seen.add((client, service))
            yield label, client, service
