"""Edited plans at every edge of the three conditions, and refusals one behind
another."""

from itertools import combinations, product

from .actions import ACTIONS, MOST_NAMES, mask_of
from .cases import A, B, END, M1_NEW, M1_OLD, M1_PLAN, either, internally, send, then
from .edits import (
    codes_missing,
    codes_over,
    emitted,
    emitted_cases,
    framed,
    moves_in,
    service,
    with_move,
    with_row,
    without_move,
)
from .moves import CODES, WITH_CLIENT, WITH_SERVICE
from .plans import Plan
from .sheets import CLIENT, Contract, state, write_sheet

EVERY = mask_of(*ACTIONS)


def records_for(label, old, new, plan, pairs):
    """Exactly enough records, one less, one more, one and none."""
    for records in sorted({pairs, max(pairs - 1, 0), pairs + 1, 1, 0}):
        yield framed(f"{label}, {records} records for {pairs}", old, new, plan, records)


# Emitted plans with one thing edited


def emitted_plans():
    for name, old, new, plan in emitted_cases():
        yield from records_for(f"{name} as emitted", old, new, plan, len(plan.rows))


def struck_out():
    """Each move, and all of a row."""
    for name, old, new, plan in emitted_cases():
        for at, code, _ in moves_in(plan):
            yield framed(f"{name} without {code} in {at}", old, new, without_move(plan, at, code))
        for at in range(len(plan.rows)):
            yield framed(f"{name}, row {at} empty", old, new, with_row(plan, at, []))
        yield framed(f"{name}, all rows empty", old, new, plan._replace(rows=[[]] * len(plan.rows)))


def added():
    """Each other code in each row: most of these nobody can make."""
    for name, old, new, plan in emitted_cases():
        for at in range(len(plan.rows)):
            for code in codes_missing(plan, at):
                yield framed(f"{name} with {code} in {at}", old, new, with_move(plan, at, code, at))


def redirected():
    """Each move to each other state."""
    for name, old, new, plan in emitted_cases():
        for at, code, after in moves_in(plan):
            for other in range(len(plan.rows)):
                if other != after:
                    yield framed(f"{name}, {code} in {at} to {other}", old, new, with_move(plan, at, code, other))


def other_ranks():
    """The plan's own k decides; above 3 it is no plan."""
    for name, old, new, plan in emitted_cases():
        for k in (0, 1, 2, 3, 4, 128, 255):
            if k != plan.k:
                yield framed(f"{name} with k {k}", old, new, plan._replace(k=k))


def other_names():
    """The plan's n: too small for its codes (14), another than the sheets' (9)."""
    for name, old, new, plan in emitted_cases():
        for n in range(9):
            if n != plan.n:
                yield framed(f"{name} with n {n}", old, new, plan._replace(n=n))


def unreached():
    """Rows that nothing leads to, or only a move that nobody can make."""
    wrong = [(code, 0) for code in (WITH_CLIENT + A, WITH_SERVICE + A)]
    for name, old, new, plan in emitted_cases():
        more = plan._replace(rows=[*plan.rows, wrong])
        last = len(plan.rows)
        yield framed(f"{name}, a wrong row that nothing leads to", old, new, more, last)
        yield framed(f"{name}, the same with two records more", old, new, more, last + 2)
        for at in range(last):
            for code in codes_missing(plan, at):
                if not WITH_CLIENT <= code < WITH_SERVICE:
                    label = f"{name}, a wrong row behind {code} in {at}"
                    yield framed(label, old, new, with_move(more, at, code, last))


def no_names():
    """Nothing can be said: every row is empty."""
    for k, states, records in product((0, 3), (1, 2, 3), (0, 1, 2)):
        label = f"no names, k {k}, {states} states, {records} records"
        yield framed(label, service(0, END), service(0, END, END), Plan(0, k, [[]] * states), records)


# The conditions, one code or ready set at a time


def one_state(ready):
    """Offers what the ready sets have; each action leads to the end."""
    return [state(ready, [1] * sum(ready).bit_count()), END] if any(ready) else [END]


def each_code():
    """A row of one code.  The two states offer everything or nothing, and the
    test holds, as the old one may end."""
    offers = {"all": one_state([0, EVERY]), "nothing": one_state([0])}
    for k, old, new in product((0, 1), offers, offers):
        sheets = service(MOST_NAMES, *offers[old]), service(MOST_NAMES, *offers[new])
        for code in CODES:
            label = f"{code} alone, k {k}, old offers {old}, new {new}"
            yield framed(label, *sheets, Plan(MOST_NAMES, k, [[(code, 1)], []]))


LOOP = state([0, EVERY], [0] * len(ACTIONS))


def filled(counts, rest):
    """A plan that comes to these counts, k 2, and goes on with the rest."""
    codes = []
    for action in ACTIONS:
        alone = WITH_CLIENT if action < MOST_NAMES else WITH_SERVICE
        codes += [alone + action] * counts[action]
    rows = [[(code, at + 1)] for at, code in enumerate(codes)]
    return Plan(MOST_NAMES, 2, [*rows, *rest(len(rows))])


def each_limit():
    """Rows of all codes, of which one does not keep the buffer: the others
    find a message and room.  Then two of them, and none."""

    def rest(at):
        return [[(code, at + 1) for code in CODES], []]

    everything = service(MOST_NAMES, LOOP)
    ones = (1,) * len(ACTIONS)
    yield framed("all codes keep", everything, everything, filled(ones, rest))
    for action, count in product(ACTIONS, (0, 2)):
        counts = ones[:action] + (count,) + ones[action + 1 :]
        yield framed(f"count {action} is {count}", everything, everything, filled(counts, rest))
    for first, last in ((0, 13), (6, 7), (3, 10)):
        counts = tuple(0 if action in (first, last) else 1 for action in ACTIONS)
        yield framed(f"counts {first} and {last} are 0", everything, everything, filled(counts, rest))


def each_meeting():
    """Rows of all codes, all of which keep the buffer.  The old state does
    not offer some actions, nor the new one some of these: a code or two, or
    many, that only the new state can meet."""

    def rest(at):
        return [[(0, at + 1)], [(code, at + 2) for code in CODES], []]

    def without(*actions):
        mask = EVERY & ~mask_of(*actions)
        behind = state([0, mask], [1] * mask.bit_count())
        return service(MOST_NAMES, LOOP._replace(successor={**LOOP.successor, 0: 1}), behind)

    plan = filled((1,) * len(ACTIONS), rest)
    yield framed("all codes met", without(), without(), plan)
    for action in ACTIONS:
        yield framed(f"old does not offer {action}", without(action), without(), plan)
        yield framed(f"neither offers {action}", without(action), without(action), plan)
        yield framed(f"new does not offer {action}", without(), without(action), plan)
    for some in ((0, 13), (6, 7), (1, 2, 3), range(7), range(7, 14)):
        yield framed(f"old does not offer {[*some]}", without(*some), without(), plan)
        yield framed(f"neither offers {[*some]}", without(*some), without(*some), plan)


def each_ready_set():
    """Eight ready sets: the first is answered by a straight move, each other
    by one with the service alone; each of them unanswered, each two, all."""
    sends = range(7, 14)
    old = service(MOST_NAMES, *then(A))
    new = service(MOST_NAMES, state([mask_of(action) for action in (A, *sends)], [1] * 8), END)
    answers = [(A, 2), *((WITH_SERVICE + action, 1) for action in sends)]

    def case(label, left_out):
        row = [move for place, move in enumerate(answers) if place not in left_out]
        return framed(label, old, new, Plan(MOST_NAMES, 1, [row, [(WITH_CLIENT + A, 2)], []]))

    for count in (0, 1, 2, 8):
        for left_out in combinations(range(8), count):
            yield case(f"ready sets {left_out} unanswered", left_out)


def each_old_ready_set():
    """Eight ready sets of the old state, of two actions each: the row shows
    one of them, or less; some sets are shown by straight moves, and then only
    to a new state that has both actions in one ready set."""
    pairs = list(combinations(range(5), 2))[:8]
    old = service(5, state([mask_of(*pair) for pair in pairs], [1] * 5), END)
    silent, ready = service(5, END), service(5, state([mask_of(*range(5))], [1] * 5), END)
    choosy = service(5, state([mask_of(0, 1, 2), mask_of(2, 3, 4)], [1] * 5), END)
    for first, second in combinations(range(5), 2):
        alone = [(WITH_CLIENT + action, 1) for action in (first, second)]
        straight = [(action, 1) for action in (first, second)]
        for name, new, row in [
            ("alone, silent", silent, alone),
            ("alone", ready, alone),
            ("straight", ready, straight),
            ("straight, choosy", choosy, straight),
            ("half straight", ready, [straight[0], alone[1]]),
            ("half", ready, alone[:1]),
        ]:
            yield framed(f"{first} and {second} {name}", old, new, Plan(5, 1, [row, []]))


def empty_ready_set():
    """A ready set that has nothing is answered by the old state alone, and
    its mask is 0; a move with the service alone is hope in its own set only."""
    for old_ready, new_ready, row in product(
        ([mask_of(A)], [0], [0, mask_of(A)]),
        ([0], [0, mask_of(B)], [mask_of(send(A)), mask_of(send(B))]),
        ([], [WITH_CLIENT + A], [WITH_SERVICE + send(A)], [WITH_SERVICE + send(B)]),
    ):
        old, new = service(2, *one_state(old_ready)), service(2, *one_state(new_ready))
        for after in (0, 1):
            plan = Plan(2, 1, [[(code, after) for code in row], []])
            yield framed(f"{row} to {after}, old {old_ready}, new {new_ready}", old, new, plan)


def conditions_together():
    """Every row over one name."""
    a, both = mask_of(A), mask_of(A, send(A))
    systems = [
        ("a(+)!a to a+!a", 1, [a, both ^ a], [both]),
        ("a to a+!a", 0, [a], [both]),
        ("0 to a(+)!a", 1, [0], [a, both ^ a]),
        ("!a to a", 2, [both ^ a], [a]),
    ]
    for name, k, old_ready, new_ready in systems:
        old, new = service(1, *one_state(old_ready)), service(1, *one_state(new_ready))
        for row in (codes for size in range(7) for codes in combinations(codes_over(1), size)):
            plan = Plan(1, k, [[(code, 1) for code in row], []])
            yield framed(f"{name}, row {row}", old, new, plan)


def looping():
    """Every row over one name that comes back to itself, k 2: one plan state
    stands with many situations."""
    a, both = mask_of(A), mask_of(A, send(A))
    for name, old_ready, new_ready in (("a+!a to a+!a", [both], [both]), ("0 to a(+)!a", [0], [a, both ^ a])):
        old, new = (
            service(1, state(ready, [0] * sum(ready).bit_count())) for ready in (old_ready, new_ready)
        )
        for row in (codes for size in range(7) for codes in combinations(codes_over(1), size)):
            plan = Plan(1, 2, [[(code, 0) for code in row]])
            yield framed(f"{name} for ever, row {row}", old, new, plan)


# Pairs of plan states and situations


def shared_states():
    """One plan state with several situations: all sound, or one that is not,
    by each condition; and as many records as plan states."""
    a, b = mask_of(A), mask_of(B)

    def chain(ready, ends):
        """a three times, then what the last state has."""
        rows = [state([a], [at + 1]) for at in range(3)]
        return service(2, *rows, state(ready, [4] * sum(ready).bit_count()), *([END] if ends else []))

    loop = Plan(2, 0, [[(A, 0)]])
    sound = chain([0], False)
    for name, old, new in [
        ("all sound", sound, sound),
        ("the last does not end", chain([b], True), sound),
        ("the last wants b", sound, chain([b], True)),
        ("the last only new goes on", sound, chain([a], True)),
        ("the last only old goes on", chain([a], True), sound),
    ]:
        yield from records_for(f"one state, {name}", old, new, loop, 4)
    waiting = service(1, state([0, mask_of(A)], [0]))
    silent = service(1, END)
    for k in range(4):
        plan = Plan(1, k, [[(WITH_CLIENT + A, 0)]])
        yield from records_for(f"one state takes for ever, k {k}", waiting, silent, plan, k + 1)
        rows = [[(WITH_CLIENT + A, at + 1)] for at in range(k)] + [[]]
        yield from records_for(f"takes {k}, k {k}", waiting, silent, Plan(1, k, rows), k + 1)


def told_apart():
    """Two situations that agree in their states, with different buffers; and
    two pairs that agree in their situation, with different plan states."""
    both = service(1, state([0, mask_of(A)], [0]))
    swallow = [(WITH_CLIENT + A, 1)]
    for name, rows in [
        ("sound by both ways", [swallow, [(WITH_SERVICE + A, 0)]]),
        ("one more each time", [swallow, [(WITH_CLIENT + A, 1)]]),
        ("one less than there is", [[(WITH_SERVICE + A, 0)]]),
        ("the same situation in two rows", [[(A, 1), (WITH_CLIENT + A, 1)], [(A, 0), (WITH_SERVICE + A, 1)]]),
    ]:
        for k in (1, 2):
            for records in range(7):
                yield framed(f"{name}, k {k}, {records} records", both, both, Plan(1, k, rows), records)


def order_of_the_walk():
    """Two unsound pairs at once: which comes first is by codes, then by the
    row before, and not by plan states or depth."""
    old = new = service(2, state([0, mask_of(A), mask_of(A, B)], [0, 0]))
    bad_a, bad_b = [(WITH_SERVICE + A, 0)], [(WITH_SERVICE + B, 0)]
    for name, rows in [
        ("lower code first", [[(A, 2), (B, 1)], bad_b, bad_a]),
        ("lower code first, states the other way", [[(A, 1), (B, 2)], bad_a, bad_b]),
        ("nearer first", [[(A, 1), (B, 3)], [(A, 2)], bad_a, bad_b]),
        ("nearer first, other code", [[(A, 3), (B, 1)], [(A, 2)], bad_a, bad_b]),
        ("found by the earlier row", [[(A, 2), (B, 1)], [(A, 3)], [(B, 4)], bad_a, bad_b]),
        ("found by the later row", [[(A, 1), (B, 2)], [(B, 4)], [(A, 3)], bad_a, bad_b]),
        ("the start itself", [[(A, 1), (WITH_SERVICE + A, 1)], bad_b]),
    ]:
        for records in (len(rows) - 1, len(rows)):
            yield framed(f"{name}, {records} records", old, new, Plan(2, 1, rows), records)


def client_must_not_wait():
    """The test with the row's own moves: a kept move that was struck out is
    not there, whatever the pair would allow."""
    old, new = service(2, *then(A)), service(2, *internally(A, B))
    plan = emitted(old, new, 1)
    for size in range(len(plan.rows[0]) + 1):
        for row in combinations(plan.rows[0], size):
            yield framed(f"M8 with first row {row}", old, new, with_row(plan, 0, list(row)))
    old, new = service(2, *internally(A, B)), service(2, *either(A, B))
    plan = emitted(old, new, 1)
    for size in range(len(plan.rows[0]) + 1):
        for row in combinations(plan.rows[0], size):
            yield framed(f"a(+)b to a+b with first row {row}", old, new, with_row(plan, 0, list(row)))


# Refusals


def broken_sheets():
    """A sheet for each of refusals 1 to 9, in the place of M1's."""
    yield 1, M1_OLD[-5:]
    yield 2, M1_OLD[:-1] + b"\xc6"
    yield 3, M1_OLD[:-6] + b"\x08" + M1_OLD[-5:]
    yield 4, M1_OLD[:7] + b"\1" + M1_OLD[8:]
    yield 5, M1_OLD[:4] + b"\0" + M1_OLD[5:]
    yield 6, M1_OLD[:2] + b"\x80" + M1_OLD[3:]
    yield 7, M1_OLD[:3] + b"\2" + M1_OLD[4:]
    yield 8, M1_OLD[:-2] + b"\1" + M1_OLD[-1:]
    yield 9, write_sheet(service(3, *then(A)))


PLANS = {
    "good": M1_PLAN,
    "broken": M1_PLAN[1:],
    "empty": b"",
    "of other names": M1_PLAN[:-2] + b"\3" + M1_PLAN[-1:],
    "broken, of other names": M1_PLAN[:-2] + b"\3\4",
    "unsound": bytes(1) + M1_PLAN[4:5] + bytes(4) + b"\1" + bytes(3) + b"\2" + bytes(3) + M1_PLAN[-4:],
}


def refusals():
    """Each refusal of the first sheet, of the second and of both, before each
    kind of plan, with records and with none; then nothing, and too much."""
    for name, plan in PLANS.items():
        for records in (0, 1, 5):
            yield framed(f"{name} plan, {records} records", M1_OLD, M1_NEW, plan, records)
        for number, sheet in broken_sheets():
            yield framed(f"{number} in the first, {name} plan", sheet, M1_NEW, plan, 3)
            yield framed(f"{number} in the second, {name} plan", M1_OLD, sheet, plan, 3)
            yield framed(f"{number} in both, {name} plan", sheet, sheet, plan, 3)
    kinds = list(broken_sheets())
    for (first, one), (second, other) in product(kinds, kinds):
        if first != second:
            yield framed(f"{first} in the first, {second} in the second", one, other, M1_PLAN[1:], 2)
    for sheet in (b"", bytes(2119)):
        yield framed(f"{len(sheet)} bytes first", sheet, M1_NEW, M1_PLAN, 2)
        yield framed(f"{len(sheet)} bytes second", M1_OLD, sheet, M1_PLAN, 2)


def whole_plans_of_other_form():
    """What is no plan (14), with whole sheets: cut at every byte, with a byte
    more, an index that does not fit, a state that is not there."""
    for length in range(len(M1_PLAN)):
        yield framed(f"first {length} bytes", M1_OLD, M1_NEW, M1_PLAN[:length], 3)
    for at in range(len(M1_PLAN)):
        for by in (1, 128, 255):
            changed = M1_PLAN[:at] + bytes([M1_PLAN[at] ^ by]) + M1_PLAN[at + 1 :]
            yield framed(f"byte {at} changed by {by}", M1_OLD, M1_NEW, changed, 3)
    yield framed("a byte before", M1_OLD, M1_NEW, b"\0" + M1_PLAN, 3)
    yield framed("a byte behind", M1_OLD, M1_NEW, M1_PLAN + b"\0", 3)
    for rows in ([], [[(A, 1)]], [[(A, 2)], []], [[(A, 0), (A, 0)]], [[(B, 0), (A, 0)]], [[(2, 0)]], [[(14, 0)]]):
        yield framed(f"rows {rows}", M1_OLD, M1_NEW, Plan(2, 0, rows), 3)


def roles():
    """A client's sheet in either place, whatever it holds."""
    one = Contract(1, CLIENT, (state([1 << 14], []),))
    for first, second in ((one, service(1, END)), (service(1, END), one), (one, one)):
        yield framed("a client's sheet", first, second, Plan(1, 0, [[]]), 2)


def edges():
    yield from emitted_plans()
    yield from struck_out()
    yield from added()
    yield from redirected()
    yield from other_ranks()
    yield from other_names()
    yield from unreached()
    yield from no_names()
    yield from each_code()
    yield from each_limit()
    yield from each_meeting()
    yield from each_ready_set()
    yield from each_old_ready_set()
    yield from empty_ready_set()
    yield from conditions_together()
    yield from looping()
    yield from shared_states()
    yield from told_apart()
    yield from order_of_the_walk()
    yield from client_must_not_wait()
    yield from refusals()
    yield from whole_plans_of_other_form()
    yield from roles()
