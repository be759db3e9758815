"""Pairs at every edge of the settled mode (document 02, request 5/13), most of
them in both modes."""

from itertools import product

from .actions import mask_of
from .cases import CASES, END, FOR_EVER, M1_NEW, M1_OLD, NOTHING, A, B, C, either, internally, send, then
from .edit_edges import broken_sheets
from .pairs import RECORDS, framed
from .relation import SETTLED
from .sheets import SERVICE, Contract, offered, state, write_sheet

GIVES_B, GIVES_C, GIVES_G = send(B), send(C), send(6)

#: More bytes than any of these plans has.
ROOM = 2000


def sheet(n, states):
    return write_sheet(Contract(n, SERVICE, tuple(states)))


def settled(label, n, old, new, k, records=RECORDS, room=ROOM, mode=SETTLED):
    return framed(f"{label}, settled", sheet(n, old), sheet(n, new), k, records, room, mode)


def in_one(*pair):
    yield settled(*pair)


def in_both(label, n, old, new, k):
    yield settled(label, n, old, new, k)
    yield framed(f"{label}, paper", sheet(n, old), sheet(n, new), k, room=ROOM)


def led_to(after, ready):
    """The ready sets; each action leads to one state."""
    return state(ready, [after] * len(offered(ready)))


def loop(*ready):
    """One state, to which every action leads back."""
    return [led_to(0, [mask_of(*actions) for actions in ready])]


def ready_then_end(ready):
    return [led_to(1, ready), END]


def behind(action, states):
    """An action, then what the states say."""
    moved = [row._replace(successor={by: at + 1 for by, at in row.successor.items()}) for row in states]
    return [state([mask_of(action)], [1]), *moved]


# The cases of document 01, and the byte that names the mode


def named_cases():
    for case in CASES:
        for k in range(5):
            yield settled(f"{case.name}, k {k}", case.n, case.old, case.new, k)


def mode_bytes():
    """Every byte but 0 is the settled mode."""
    named = {case.name: (case.n, case.old, case.new, case.k) for case in CASES}
    named["0(+)a for ever to 0"] = 1, loop((), (A,)), NOTHING, 1
    for name, byte in product(("M1", "M4", "M8", "M13", "0(+)a for ever to 0"), (2, 3, 127, 128, 254, 255)):
        n, old, new, k = named[name]
        yield settled(f"{name}, mode {byte}", n, old, new, k, mode=byte)


# What waits


def each_name():
    """A name that waits for the service at the old contract's end, or for the
    client, which does not matter: never taken, taken, taken in one of two
    ready sets, and a send first."""
    for name in range(7):
        other, gives = (name + 1) % 7, send(name)
        modes = in_both if name in (0, 6) else in_one
        for label, old, new in [
            ("never taken", then(name), NOTHING),
            ("taken", then(name), then(name)),
            ("perhaps taken", then(name), internally(name, other)),
            ("a send first", then(name), then(gives)),
            ("sent, then taken", then(name), then(gives, name)),
            ("for the client", NOTHING, then(gives)),
            ("for the client, both", then(gives), then(gives, gives)),
        ]:
            yield from modes(f"name {name} {label}", 7, old, new, 1)


def how_many():
    """One to three of a name, as many taken or fewer, at each k."""
    for sent in range(1, 4):
        for taken in range(sent + 1):
            for k in range(1, 4):
                yield from in_both(f"{sent} sent, {taken} taken, k {k}", 1, then(*[A] * sent), then(*[A] * taken), k)


def names_together():
    """Two names wait, of which the service takes the one, the other, both in
    either order, both by its choice, or one of them by its choice."""
    one, other = mask_of(A), mask_of(B)
    order = [state([one, other], [1, 2]), state([other], [3]), state([one], [3]), END]
    for label, new in [
        ("a", then(A)),
        ("b", then(B)),
        ("a.b", then(A, B)),
        ("b.a", then(B, A)),
        ("a+b", either(A, B)),
        ("a(+)b", internally(A, B)),
        ("a.b(+)b.a", order),
        ("a+b for ever", loop((A, B))),
        ("a(+)b for ever", loop((A,), (B,))),
        ("(a+b)(+)a for ever", loop((A, B), (A,))),
    ]:
        for k in (1, 2):
            yield from in_both(f"a.b to {label}, k {k}", 2, then(A, B), new, k)
        yield from in_both(f"0(+)(a+b) for ever to {label}", 2, loop((), (A, B)), new, 1)


def for_the_client_too():
    """Messages wait in both directions: the old contract takes a and gives b,
    or may leave before it gives it."""
    for label, new in [
        ("b given, a taken", then(GIVES_B, A)),
        ("a taken, b given", then(A, GIVES_B)),
        ("b given", then(GIVES_B)),
        ("b given twice", then(GIVES_B, GIVES_B)),
        ("b given twice, a taken", then(GIVES_B, GIVES_B, A)),
    ]:
        for k in (1, 2):
            yield from in_both(f"a.!b to {label}, k {k}", 2, then(A, GIVES_B), new, k)
            leaves = behind(A, [state([0, mask_of(GIVES_B)], [1]), END])
            yield from in_both(f"a.(0(+)!b) to {label}, k {k}", 2, leaves, new, k)


# The empty ready set


#: Ready sets that the old state has beside the empty one, all of sends.
OTHERS = [mask_of(*(GIVES_B + name for name in range(3) if set_of >> name & 1)) for set_of in range(1, 8)]


def among_others():
    """Behind a, the old state has the empty ready set alone, before one to
    seven others, or only others; the new contract gives all that these want,
    for ever, and takes a or does not."""
    gives = GIVES_B, GIVES_B + 1, GIVES_B + 2
    for label, new in [("never takes a", loop(gives)), ("may take a", loop((*gives, A)))]:
        for count in range(8):
            for empty in ([0], []):
                if count == 0 and not empty:
                    continue
                old = [state([mask_of(A)], [1]), led_to(1, [*empty, *OTHERS[:count]])]
                yield from in_both(f"{count} others, {len(empty)} empty, new {label}", 4, old, new, 1)


def in_the_new_state():
    """The new state has the empty ready set where the old one has none: the
    situation goes only when the next has gone."""
    a, b = mask_of(A), mask_of(B)
    for label, new in [
        ("0", NOTHING),
        ("0(+)a", ready_then_end([0, a])),
        ("0(+)b", ready_then_end([0, b])),
        ("0(+)a for ever", loop((), (A,))),
        ("0(+)!b", ready_then_end([0, mask_of(GIVES_B)])),
        ("a.0(+)a", behind(A, ready_then_end([0, a]))),
    ]:
        for k in (1, 3):
            yield from in_both(f"a.a.a to {label}, k {k}", 2, then(A, A, A), new, k)
            late = [state([mask_of(A, B)], [0, 1]), END]
            yield from in_both(f"a at will, then b, to {label}, k {k}", 2, late, new, k)


def at_the_start():
    """Nothing waits at the start, so the old contract may leave there."""
    for label, new in [
        ("0", NOTHING),
        ("a", then(A)),
        ("a.a", then(A, A)),
        ("a for ever", FOR_EVER),
        ("0(+)a for ever", loop((), (A,))),
        ("a(+)b for ever", loop((A,), (B,))),
        ("!b for ever", loop((GIVES_B,))),
        ("a+!b for ever", loop((A, GIVES_B))),
        ("a(+)!b for ever", loop((A,), (GIVES_B,))),
        ("a.!b for ever", [state([mask_of(A)], [1]), state([mask_of(GIVES_B)], [0])]),
    ]:
        for k in range(4):
            yield from in_both(f"0(+)a for ever to {label}, k {k}", 2, loop((), (A,)), new, k)


# Every ready set of the new state, and its hope


def one_without_hope():
    """One to eight ready sets, all with a or one of them without: a waits at
    the end, and the start goes too; or the start stays, as the old contract
    may leave before a second a."""
    once, twice = then(A), [state([mask_of(A)], [1]), state([0, mask_of(A)], [2]), END]
    for count in range(1, 9):
        for wrong in (None, *range(count)):
            ready = [2 * at + (2 if at == wrong else 1) for at in range(count)]
            label = f"{count} ready sets, {'none' if wrong is None else wrong} without a"
            yield settled(label, 5, once, ready_then_end(ready), 1)
            yield settled(f"{label}, behind a", 5, twice, behind(A, ready_then_end(ready)), 1)


def other_moves_are_no_hope():
    """Moves passed straight and moves with the client alone are there, and
    none with the service alone, or only in another ready set."""
    b, gives = mask_of(B), mask_of(GIVES_B)
    for label, wants, new in [
        ("b for ever", B, loop((B,))),
        ("!b for ever", GIVES_B, loop((GIVES_B,))),
        ("a+b for ever", B, loop((A, B))),
        ("a(+)b for ever", B, loop((A,), (B,))),
        ("a(+)(a+b) for ever", B, loop((A,), (A, B))),
        ("c(+)(a+c) for ever", C, loop((C,), (A, C))),
        ("b, then a", B, then(B, A)),
        ("!b, then a", GIVES_B, then(GIVES_B, A)),
    ]:
        old = [state([mask_of(A)], [1]), led_to(1, [0, mask_of(wants)])]
        for k in (1, 2):
            yield from in_both(f"a, then {wants} at will, to {label}, k {k}", 3, old, new, k)
    for ready in ([0, b], [0, gives], [0, b | gives]):
        old = [state([mask_of(A)], [1]), led_to(1, ready)]
        yield from in_both(f"a, then {ready} at will, to b+!b for ever", 2, old, loop((B, GIVES_B)), 1)


def hope_lost_later():
    """The service gives so many names, each a hope, and then ends, takes a or
    gives one of them for ever: the start goes last, or stays."""
    names = [GIVES_B + at for at in range(6)]
    for count in range(7):
        given = then(*names[:count])
        for label, new in [
            ("ends", given),
            ("takes a", then(*names[:count], A)),
            ("gives g for ever", [*given[:-1], state([mask_of(GIVES_G)], [len(given) - 1])]),
        ]:
            yield from in_both(f"a to {count} given, then {label}", 7, then(A), new, 1)
            if count < 4:
                yield from in_both(f"0(+)a to {count} given, then {label}", 7, ready_then_end([0, 1]), new, 1)


def rounds_behind_the_start():
    """Nobody gives g, so the start goes at once, or when there is nothing
    else to give; behind it the situations go one by one."""
    for sent in range(1, 5):
        rows = [state([mask_of(A)], [at + 2]) for at in range(sent)]
        old = [state([mask_of(A, GIVES_G)], [1, 1]), *rows, END]
        for label, new in [("0", NOTHING), ("a", then(A)), ("!b", then(GIVES_B)), ("!b.!c", then(GIVES_B, GIVES_C))]:
            yield from in_both(f"a+!g, then {sent} a, to {label}", 7, old, new, 3)


# Refusals and what is lent


def refusals():
    """Refusals 1 to 10 in either place and in both, and before k; then 11 and
    13, and 12 before 13."""
    for number, wrong in broken_sheets():
        for k in (1, 4):
            yield framed(f"{number} in the first, k {k}, settled", wrong, M1_NEW, k, 3, 40, SETTLED)
            yield framed(f"{number} in the second, k {k}, settled", M1_OLD, wrong, k, 3, 40, SETTLED)
        yield framed(f"{number} in both, settled", wrong, wrong, 4, 0, 0, SETTLED)
    for k in (4, 5, 128, 255):
        yield framed(f"k {k}, settled", M1_OLD, M1_NEW, k, 3, 40, SETTLED)
    for case in CASES:
        if case.name in ("M1", "M4", "M8", "M13"):
            old, new = sheet(case.n, case.old), sheet(case.n, case.new)
            for records in range(case.counts[0] + 2):
                yield framed(f"{case.name}, {records} records, settled", old, new, case.k, records, 60, SETTLED)
            for room in (0, 1, 20, 21, 22, 47, 48, 49):
                yield framed(f"{case.name}, {room} bytes, settled", old, new, case.k, 9, room, SETTLED)


def many_situations():
    """4,096 situations, in all but 64 of which something waits: all are kept
    where the service takes all, and where it takes nothing only the 64."""
    takes, gives = range(6), range(7, 13)
    old = loop((), (*takes, *gives))
    for label, new in [("takes all", loop((*takes, *gives))), ("takes nothing", loop(gives))]:
        yield settled(f"4,096 situations, new {label}", 6, old, new, 1, records=4096, room=0)


def settled_pairs():
    yield from named_cases()
    yield from mode_bytes()
    yield from each_name()
    yield from how_many()
    yield from names_together()
    yield from for_the_client_too()
    yield from among_others()
    yield from in_the_new_state()
    yield from at_the_start()
    yield from one_without_hope()
    yield from other_moves_are_no_hope()
    yield from hope_lost_later()
    yield from rounds_behind_the_start()
    yield from refusals()
    yield from many_situations()
