"""Texts to be made into sheets.

A case is: lent output bytes (16 bits), then the text to the end.  Before the
call the lent output is as for choosing sheets.

Its line is: number, sheet, state; the length; the offset of what is at fault;
then every byte that the lent output holds after the call.
"""

from .cases import CASES
from .chance import Chance
from .choosing_cases import framed, lent, refused_with_little, rooms_around
from .framing import Framed
from .sheets import LONGEST
from .text_edges import edges
from .text_limits import all_rows_long, limits
from .text_random import RANDOM, whole
from .texts import fault_of, read_text

SEED = 20100912

#: Document 01's terms, old and new, of each case.
TERMS = {
    "M1": ("a", "a+b"),
    "M2": ("0", "a"),
    "M3": ("a", "0"),
    "M4": ("a", "0"),
    "M5": ("!a", "0"),
    "M6": ("0", "!a"),
    "M7": ("a", "a(+)b"),
    "M8": ("a", "a(+)b"),
    "M9": ("a(+)b", "a"),
    "M10": ("a.!c", "a.!d"),
    "M11": ("rec X.a.X", "rec X.a.X"),
    "M12": ("c.a", "a.c"),
    "M13": ("c.a", "a.c"),
}


def called(data):
    """The call that a case describes."""
    return read_text(data[2:], lent(int.from_bytes(data[:2], "little")))


def expected(data):
    answer, output = called(data)
    return " ".join(map(str, [*answer, fault_of(data[2:]), *output])) + "\n"


def group(data):
    """What a table of the cases counts them by: the number."""
    return called(data).answer.number


def length_of(text):
    """The length of the sheet that a text means, 0 on a refusal."""
    return read_text(text, bytes(LONGEST)).answer.length


def documents():
    """Document 01's terms, old and new."""
    for case in CASES:
        for which, term in zip(("old", "new"), TERMS[case.name]):
            yield Framed(f"{case.name} {which}: {term}", term.encode())


def rooms(chance):
    """Exactly enough lent, one byte less, nothing, more."""
    longest = all_rows_long().encode()
    for room in (LONGEST, LONGEST - 1, LONGEST + 1):
        yield framed(f"{room} bytes for the longest sheet", longest, room)
    made = [b"0", b"a", b"rec X.a.X", b"a.b+c.(d(+)!e)", *(whole(chance) for _ in range(26))]
    for text in made:
        length = length_of(text)
        if length > 0:
            yield from rooms_around(chance, text, length)


def cases():
    """Every edge and limit, then random texts; no case twice."""
    chance, seen = Chance(SEED), set()
    made = [*documents(), *edges(), *limits()]
    for kind, number, make in RANDOM:
        made += [Framed(f"{kind} {i}", make(chance)) for i in range(number)]
    usual = (framed(case.label, case.data, length_of(case.data) + 3) for case in made)
    for case in (*usual, *refused_with_little(made, read_text), *rooms(chance)):
        if case.data not in seen:
            seen.add(case.data)
            yield case
