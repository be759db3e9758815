"""Runs to be followed.

A case is: the client sheet, the new sheet and the plan, each behind its
length (16 bits), then the attempts to the end, five bytes each: R (16 bits),
S (16 bits), code.

Its lines are, for each attempt: 1 for a move or 0, then number and next state
of stepping at that attempt.  Then a line for the state after the list: client,
service, plan; number of standstills; how many of these lack the success mark;
and the longest row of moves of codes 32+j, refused attempts left out.
"""

from .actions import SUCCESS
from .chance import Chance
from .compliance import complies
from .connecting import connect
from .framing import Framed, measured, number_bytes
from .moves import CODES
from .pairs import MARKED, RECORDS, ROOM, small_shape
from .plans import read_plan
from .random_contracts import mirrored, random_contract, resembling
from .relation import PAPER
from .runs import Attempt, run
from .sheets import CLIENT, SERVICE, read_sheet, write_sheet

SEED = 20100905


def attempt_bytes(attempt):
    return number_bytes(attempt.client_ready) + number_bytes(attempt.service_ready) + bytes([attempt.code])


def framed(label, client, service, plan, attempts):
    data = measured(client) + measured(service) + measured(plan)
    return Framed(label, data + b"".join(attempt_bytes(attempt) for attempt in attempts))


def parts(data):
    """The three measured parts of a case, and its attempts."""
    found = []
    for _ in range(3):
        behind = 2 + int.from_bytes(data[:2], "little")
        found.append(data[2:behind])
        data = data[behind:]
    attempts = [
        Attempt(int.from_bytes(data[at : at + 2], "little"), int.from_bytes(data[at + 2 : at + 4], "little"), data[at + 4])
        for at in range(0, len(data), 5)
    ]
    return *found, attempts


def outcome_of(data):
    client, service, plan, attempts = parts(data)
    return run(read_sheet(client), read_sheet(service), read_plan(plan), attempts)


def expected(data):
    outcome = outcome_of(data)
    lines = [f"{int(moved)} {number} {after}" for moved, (number, after) in zip(outcome.moved, outcome.stepped)]
    unmarked = sum(1 for ready, _ in outcome.standstills if not ready & SUCCESS)
    last = [*outcome.at, len(outcome.standstills), unmarked, outcome.streak]
    return "\n".join([*lines, " ".join(map(str, last))]) + "\n"


def group(data):
    outcome = outcome_of(data)
    marks = {bool(ready & SUCCESS) for ready, _ in outcome.standstills}
    end = "no standstill" if not marks else "stands still, marked" if marks == {True} else "stands still, unmarked"
    return f"{end}, streak {min(outcome.streak, 4)}"


def small_system(chance):
    """Client, new contract and emitted plan as bytes; for two in three the
    client complies with the old contract."""
    while True:
        shape = small_shape(chance)
        old = random_contract(chance, shape, SERVICE)
        new = resembling(chance, shape, old)
        stranger = chance.one_in(3)
        client = random_contract(chance, shape, CLIENT) if stranger else mirrored(old, chance)
        sheets = write_sheet(old), write_sheet(new)
        after = connect(PAPER, *sheets, chance.below(4), bytes(ROOM), [MARKED] * RECORDS)
        if after.answer.number == 0 and 2 <= after.answer.plan_states <= 60 and (stranger or complies(client, old)):
            return write_sheet(client), write_sheet(new), after.plan[: after.answer.plan_length]


def random_attempts(chance, client, service, plan, length, service_first):
    """Attempts of which most are choices with a code of the row; where told,
    a code 32+j if the row has one."""
    client, service, plan = read_sheet(client), read_sheet(service), read_plan(plan)
    attempts = []
    for _ in range(length):
        at = run(client, service, plan, attempts).at
        codes = [code for code, _ in plan.rows[at.plan]] or CODES
        alone = [code for code in codes if code >= 32]
        ready = [*client.states[at.client].ready], [*service.states[at.service].ready]
        attempt = Attempt(
            chance.pick(ready[0]),
            chance.pick(ready[1]),
            chance.pick(alone if service_first and alone else codes),
        )
        odd = chance.below(12)
        if odd == 0:
            attempt = attempt._replace(client_ready=attempt.client_ready ^ 1 << chance.below(16))
        elif odd == 1:
            attempt = attempt._replace(service_ready=attempt.service_ready ^ 1 << chance.below(16))
        elif odd == 2:
            attempt = attempt._replace(code=chance.below(256))
        attempts.append(attempt)
    return attempts


def cases():
    chance = Chance(SEED)
    for i in range(520):
        system = small_system(chance)
        attempts = random_attempts(chance, *system, chance.pick([0, 1, 4, 12, 25]), chance.one_in(2))
        yield framed(f"run {i}", *system, attempts)
