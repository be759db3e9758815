"""Edited plans at every edge of the settled mode (document 02, request 5/13),
many of them in both modes."""

from itertools import combinations, product

from .actions import ACTIONS, MOST_NAMES, mask_of
from .cases import CASES, END, FOR_EVER, M1_NEW, M1_OLD, NOTHING, A, B, C, either, internally, send, then
from .edit_edges import PLANS, broken_sheets
from .edits import RECORDS, codes_over, emitted, framed, moves_in, service, with_row, without_move
from .moves import WITH_CLIENT, WITH_SERVICE
from .plans import Plan
from .relation import SETTLED, Mode
from .sheets import offered, state

GIVES_A, GIVES_B, GIVES_C = send(A), send(B), send(C)

#: A name taken from the client, handed to the service, sent by it.
TAKE_A, TAKE_B = WITH_CLIENT + A, WITH_CLIENT + B
HAND_A, HAND_B = WITH_SERVICE + A, WITH_SERVICE + B
SEND_A, SEND_B = WITH_SERVICE + GIVES_A, WITH_SERVICE + GIVES_B


def settled(label, old, new, plan, records=RECORDS):
    return framed(f"{label}, settled", old, new, plan, records, SETTLED)


def in_both(label, old, new, plan, records=RECORDS):
    for mode in Mode:
        yield framed(f"{label}, {mode.name.lower()}", old, new, plan, records, mode)


def led_to(after, ready):
    """The ready sets; each action leads to one state."""
    return state(ready, [after] * len(offered(ready)))


def loop(*ready):
    """One state, to which every action leads back."""
    return led_to(0, [mask_of(*actions) for actions in ready])


# Emitted plans


def systems():
    """M1 to M13, and pairs in which something waits at the old contract's
    end: name, old, new, k."""
    for case in CASES:
        yield case.name, *case.contracts(), case.k
    a, gives = mask_of(A), mask_of(GIVES_B)
    at_will = loop((), (A,))
    for name, old, new, k in [
        ("a to a", then(A), then(A), 1),
        ("a.a to a.a", then(A, A), then(A, A), 2),
        ("a.a to a", then(A, A), then(A), 2),
        ("a.b to b.a", then(A, B), then(B, A), 1),
        ("a.b to a", then(A, B), then(A), 1),
        ("a to !b", then(A), then(GIVES_B), 1),
        ("a to !b.a", then(A), then(GIVES_B, A), 1),
        ("a to a(+)!b.a", then(A), [state([a, gives], [2, 1]), state([a], [2]), END], 1),
        ("a.(0(+)!b) to !b.a", [state([a], [1]), state([0, gives], [2]), END], then(GIVES_B, A), 1),
        ("0(+)a for ever to 0", [at_will], NOTHING, 2),
        ("0(+)a for ever to a for ever", [at_will], FOR_EVER, 2),
        ("0(+)a for ever to a.a", [at_will], then(A, A), 2),
        ("0(+)a for ever to a(+)b for ever", [at_will], [loop((A,), (B,))], 1),
        ("a+b to a(+)b", either(A, B), internally(A, B), 1),
    ]:
        yield name, service(2, *old), service(2, *new), k


def emitted_plans():
    """The plan of each mode, checked in each, with a record per plan state
    and one less."""
    for (name, old, new, k), mode in product(systems(), Mode):
        plan = emitted(old, new, k, mode=mode)
        if plan is not None:
            label = f"{name} by {mode.name.lower()}"
            yield from in_both(label, old, new, plan, len(plan.rows))
            yield settled(f"{label}, one record less", old, new, plan, len(plan.rows) - 1)


def struck_out():
    """Each move of the paper's plan, and of the settled one in both modes."""
    for name, old, new, k in systems():
        for mode in Mode:
            plan, label = emitted(old, new, k, mode=mode), f"{name} by {mode.name.lower()}"
            if plan is None:
                continue
            for at, code, _ in moves_in(plan):
                struck = without_move(plan, at, code)
                yield settled(f"{label} without {code} in {at}", old, new, struck)
                if mode is SETTLED:
                    yield framed(f"{label} without {code} in {at}, paper", old, new, struck)
            for at, row in enumerate(plan.rows):
                if len(row) > 1:
                    yield settled(f"{label}, row {at} empty", old, new, with_row(plan, at, []))


def mode_bytes():
    """Every byte but 0 is the settled mode."""
    for name, old, new, k in systems():
        if name in ("M1", "M4", "M8", "M13", "a to !b"):
            for byte in (2, 3, 127, 128, 254, 255):
                yield framed(f"{name}, mode {byte}", old, new, emitted(old, new, k), mode=byte)


# The second part of the test


def each_count():
    """One to three of each name and direction, with nothing to follow: what
    waits for the client does not matter."""
    for action in ACTIONS:
        for_service = action < MOST_NAMES
        code = action + (WITH_CLIENT if for_service else WITH_SERVICE)
        for count in range(1, 4):
            busy, idle = service(MOST_NAMES, *then(*[action] * count)), service(MOST_NAMES, END)
            sheets = (busy, idle) if for_service else (idle, busy)
            rows = [[(code, at + 1)] for at in range(count)] + [[]]
            yield settled(f"{count} of {action}", *sheets, Plan(MOST_NAMES, count, rows))
            if count == 1:
                yield framed(f"{count} of {action}, paper", *sheets, Plan(MOST_NAMES, count, rows))


def each_ready_set():
    """Eight ready sets, each with hope of its own: each of them without, each
    two, all; a waits where the old contract ends."""
    hopes = A, *range(7, 14)
    old = service(MOST_NAMES, *then(A))
    new = service(MOST_NAMES, state([mask_of(action) for action in hopes], [1] * 8), state([mask_of(A)], [2]), END)
    for count in (0, 1, 2, 8):
        for left_out in combinations(range(8), count):
            held = [action for place, action in enumerate(hopes) if place not in left_out]
            row = [(WITH_SERVICE + action, 3 if action == A else 2) for action in held]
            plan = Plan(MOST_NAMES, 1, [[(TAKE_A, 1)], row, [(HAND_A, 3)], []])
            yield settled(f"ready sets {left_out} without hope", old, new, plan)
            if count in (0, 8):
                yield framed(f"ready sets {left_out} without hope, paper", old, new, plan)


def hope_in_common():
    """One hope for several ready sets, all of them or all but one; a ready
    set that has nothing has none."""
    for count in range(1, 9):
        for wrong in (None, *range(count)):
            ready = [2 * at + (2 if at == wrong else 1) for at in range(count)]
            new = service(5, led_to(1, ready), END)
            plan = Plan(5, 1, [[(TAKE_A, 1)], [(HAND_A, 2)] if count > 1 or wrong is None else [], []])
            yield settled(f"{count} ready sets, {wrong} without a", service(5, *then(A)), new, plan)
    for ready in ([0], [0, mask_of(A)], [0, mask_of(A), mask_of(A, B)]):
        new = service(2, led_to(1, ready), END)
        plan = Plan(2, 1, [[(TAKE_A, 1)], [(HAND_A, 2)] if len(ready) > 1 else [], []])
        yield from in_both(f"ready sets {ready}", service(2, *then(A)), new, plan)


def where_the_old_may_end():
    """The empty ready set alone, among others, or only others; the same in
    the new state.  Straight moves and those with the client alone answer the
    old state and are no hope.  All lead to where both go on for ever."""
    a, b, gives = mask_of(A), mask_of(B), mask_of(GIVES_B)
    for old_ready, new_ready in product(
        ([0], [0, b], [0, b, b | gives], [b, b | gives]),
        ([b], [a | b], [a, b], [0, b]),
    ):
        old, new = (
            service(2, state([first], [1]), led_to(2, ready), state([b], [2]))
            for first, ready in ((a, old_ready), (gives, new_ready))
        )
        for row in ([], [B], [B, TAKE_B], [HAND_A], [B, HAND_A], [TAKE_B, HAND_A]):
            plan = Plan(2, 2, [[(TAKE_A, 1)], [(SEND_B, 2)], [(code, 3) for code in row], [(B, 3)]])
            yield settled(f"row {row}, old {old_ready}, new {new_ready}", old, new, plan)


def every_row():
    """Every row over one name, where a waits for both: all six codes keep the
    buffer, so that the other conditions fail alone and together."""
    a, gives = mask_of(A), mask_of(GIVES_A)
    for name, old_ready, new_ready in [
        ("0(+)(a+!a) to a(+)!a", [0, a | gives], [a, gives]),
        ("0(+)a to a+!a", [0, a], [a | gives]),
    ]:
        old, new = (
            service(1, state([first], [1]), led_to(2, ready), state([a], [2]))
            for first, ready in ((a, old_ready), (gives, new_ready))
        )
        for row in (codes for size in range(7) for codes in combinations(codes_over(1), size)):
            plan = Plan(1, 2, [[(TAKE_A, 1)], [(SEND_A, 2)], [(code, 3) for code in row], [(A, 3)]])
            yield settled(f"{name}, row {row}", old, new, plan)


def looping():
    """Every row over one name that comes back to itself, k 2: one plan state
    with situations in which more or less waits."""
    old, new = service(1, loop((), (A, GIVES_A))), service(1, loop((A,), (A, GIVES_A)))
    for row in (codes for size in range(7) for codes in combinations(codes_over(1), size)):
        yield settled(f"for ever, row {row}", old, new, Plan(1, 2, [[(code, 0) for code in row]]))


# Pairs of plan states and situations


def shared_states():
    """One plan state with several situations, of which some wait for
    something, and some at an end."""
    a, b = mask_of(A), mask_of(B)
    once, at_will = service(2, *then(A)), service(2, loop((), (A, B)))
    middle = service(2, state([a], [1]), state([0, a], [2]), state([a, a | b], [3, 3]), END)
    takes_all = service(2, loop((A, B)))
    for name, old, new, k, rows in [
        ("a waits or not", once, once, 1, [[(A, 1), (TAKE_A, 1)], []]),
        ("a waits or not, handed on", once, once, 1, [[(A, 1), (TAKE_A, 2)], [], [(HAND_A, 1)]]),
        ("a, b or nothing waits", at_will, takes_all, 1, [[(A, 1), (TAKE_A, 1), (TAKE_B, 1)], []]),
        ("b or nothing waits", at_will, takes_all, 1, [[(A, 1), (TAKE_B, 1)], []]),
        ("a waits, b is handed on", at_will, takes_all, 1, [[(TAKE_A, 1), (TAKE_B, 2)], [], [(HAND_B, 3)], []]),
        ("more each time", at_will, takes_all, 3, [[(TAKE_A, 1)], [(TAKE_A, 1), (HAND_A, 1)]]),
        ("one or two wait", at_will, takes_all, 3, [[(TAKE_A, 1)], [(TAKE_A, 2), (HAND_A, 0)], [(HAND_A, 3)], []]),
        ("at an end in the middle", middle, service(2, END), 3, [[(TAKE_A, 1)], [(TAKE_A, 2)], [(TAKE_A, 3)], []]),
        ("the same in one state", middle, service(2, END), 3, [[(TAKE_A, 0)]]),
        ("straight and waiting", middle, service(2, *then(A, A, A)), 3, [[(A, 0), (TAKE_A, 1)], [(HAND_A, 0)]]),
    ]:
        yield from in_both(name, old, new, Plan(2, k, rows))
        for records in (1, 2, 3, 4):
            yield settled(f"{name}, {records} records", old, new, Plan(2, k, rows), records)


def order_of_faults():
    """The second part fails in a row that fails another condition too, or in
    a pair before or behind one that does; the first part never fails in the
    same pair, as an empty ready set lies within everything."""
    a, b = mask_of(A), mask_of(B)
    ends_by_a = service(3, state([a | b], [1, 2]), END, state([b], [1]))
    ends_by_b = service(3, state([a | b], [2, 1]), END, state([b], [1]))
    silent, takes_b = service(3, END), service(3, *then(B))
    taken, more = [(TAKE_A, 1), (TAKE_B, 2)], [[(TAKE_B, 3)], []]
    for name, old, new, rows in [
        ("4 alone", ends_by_a, silent, [taken, [], *more]),
        ("4 and 1", ends_by_a, silent, [taken, [(HAND_B, 1)], *more]),
        ("4 and 1 or 2", ends_by_a, silent, [taken, [(TAKE_A, 1)], *more]),
        ("4 and 2", ends_by_a, silent, [taken, [(TAKE_B, 1)], *more]),
        ("4 and 2, straight", ends_by_a, takes_b, [taken, [(B, 1)], *more]),
        ("4 before 3", ends_by_a, silent, [taken, [], []]),
        ("4 before 1", ends_by_a, silent, [taken, [], [(HAND_A, 3)], []]),
        ("4 before 2", ends_by_a, silent, [taken, [], [(TAKE_A, 3)], []]),
        ("3 before 4", ends_by_b, silent, [taken, [], []]),
        ("4 before 3 in one plan state", ends_by_a, silent, [[(TAKE_A, 1), (TAKE_B, 1)], []]),
        ("3 before 4 in one plan state", ends_by_b, silent, [[(TAKE_A, 1), (TAKE_B, 1)], []]),
        ("3 at the start, then 4", ends_by_a, silent, [[(TAKE_A, 1)], []]),
        ("1 at the start, then 4", ends_by_a, silent, [[(TAKE_A, 1), (TAKE_B, 1), (HAND_A, 1)], []]),
        ("2 at the start, then 4", ends_by_a, silent, [[(TAKE_A, 1), (TAKE_B, 1), (WITH_CLIENT + C, 1)], []]),
        ("4, and 4 behind", ends_by_a, silent, [[(TAKE_A, 2), (TAKE_B, 1)], [(TAKE_B, 3)], [], []]),
        ("4, and 4 behind in a state before", ends_by_a, silent, [[(TAKE_A, 2), (TAKE_B, 3)], [], [], [(TAKE_B, 1)]]),
    ]:
        for k in (1, 2):
            yield from in_both(f"{name}, k {k}", old, new, Plan(3, k, rows))


def capacity_first():
    """A chain of nine pairs in which a waits behind the first: one new state
    has a ready set without hope, or none has; with fewer records than pairs
    it is 11, and behind the unsound pair the walk goes on."""
    sends = [GIVES_B + at for at in range(6)]
    length = len(sends) + 3
    for wrong in (None, *range(1, length - 1)):
        steps = [*sends, A]
        rows = []
        for at, action in enumerate(steps, 1):
            rows.append(led_to(at, [mask_of(action)] + ([mask_of(B)] if at == wrong else [])))
        new = service(MOST_NAMES, *rows, END)
        moves = [[(TAKE_A, 1)], *([(WITH_SERVICE + action, at + 2)] for at, action in enumerate(steps)), []]
        for records in (1, length - 1, length, length + 1):
            label = f"pair {wrong} of {length} unsound, {records} records"
            yield settled(label, service(MOST_NAMES, *then(A)), new, Plan(MOST_NAMES, 1, moves), records)


def refusals():
    """Each refusal of the first sheet, of the second and of both, before the
    plan's own; then each kind of plan with records and with none."""
    for name, plan in PLANS.items():
        for records in (0, 1, 5):
            yield settled(f"{name} plan, {records} records", M1_OLD, M1_NEW, plan, records)
    for number, sheet in broken_sheets():
        for name in ("good", "broken, of other names"):
            yield settled(f"{number} in the first, {name} plan", sheet, M1_NEW, PLANS[name], 3)
            yield settled(f"{number} in the second, {name} plan", M1_OLD, sheet, PLANS[name], 3)
        yield settled(f"{number} in both", sheet, sheet, PLANS["unsound"], 3)


def settled_edges():
    yield from emitted_plans()
    yield from struck_out()
    yield from mode_bytes()
    yield from each_count()
    yield from each_ready_set()
    yield from hope_in_common()
    yield from where_the_old_may_end()
    yield from every_row()
    yield from looping()
    yield from shared_states()
    yield from order_of_faults()
    yield from capacity_first()
    yield from refusals()
