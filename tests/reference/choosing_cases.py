"""Choosing sheets to be converted.

A case is: lent output bytes (16 bits), then the choosing sheet to the end.
Before the call the byte at place i of the lent output is 255 - i modulo 256.

Its line is: number, sheet, state; the length; then every byte that the lent
output holds after the call.
"""

from .chance import Chance
from .choosing import convert, write_choosing
from .choosing_dense import dense
from .choosing_edges import edges
from .choosing_limits import limits
from .choosing_random import careless, damaged, noise_before_trailer, whole, whole_large, with_circles
from .framing import Framed, number_bytes
from .sheet_random import noise
from .sheets import LONGEST

SEED = 20100906


def lent(room):
    """What the lent output holds before the call."""
    return bytes((255 - place) % 256 for place in range(room))


def called(data):
    """The call that a case describes."""
    return convert(data[2:], lent(int.from_bytes(data[:2], "little")))


def expected(data):
    answer, output = called(data)
    return " ".join(map(str, [*answer, *output])) + "\n"


def group(data):
    """What a table of the cases counts them by: the number."""
    return called(data).answer.number


def framed(label, sheet, room):
    return Framed(label, number_bytes(room) + sheet)


def length_of(sheet):
    """The length of what a choosing sheet is converted to, 0 on a refusal."""
    return convert(sheet, bytes(LONGEST)).answer.length


def usual_room(sheet):
    """A little more than is needed, and little on a refusal."""
    return length_of(sheet) + 3


def rooms(chance):
    """Exactly enough lent, one byte less, nothing, more."""
    longest = write_choosing(dense(late=False))
    yield framed("2,118 bytes for the longest sheet", longest, LONGEST)
    yield framed("2,117 bytes for the longest sheet", longest, LONGEST - 1)
    found = 0
    while found < 30:
        sheet = whole(chance)
        length = length_of(sheet)
        if length > 11:
            found += 1
            yield from rooms_around(chance, sheet, length)


def rooms_around(chance, data, length):
    """What is converted to so many bytes, with as many lent, fewer, more."""
    for room in (length, length - 1, length + 1, 0, 1, chance.below(length), length + chance.between(2, 40)):
        yield framed(f"{room} bytes for {length}", data, room)


def refused_with_little(cases, converted):
    """Each refusal before 13: nothing lent, or more than most sheets need."""
    seen = {}
    for case in cases:
        number = converted(case.data, b"").answer.number
        seen[number] = seen.get(number, 0) + 1
        if number != 13 and seen[number] <= 6:
            yield framed(f"{case.label}, nothing lent", case.data, 0)
            yield framed(f"{case.label}, much lent", case.data, 300)


#: How many random sheets of each kind.
RANDOM = (
    ("whole", 250, whole),
    ("whole, large", 60, whole_large),
    ("with circles", 60, with_circles),
    ("damaged", 260, damaged),
    ("careless", 200, careless),
    ("noise before a trailer", 60, noise_before_trailer),
    ("noise", 20, noise),
)


def cases():
    """Every edge and limit, then random sheets; no case twice."""
    chance, seen = Chance(SEED), set()
    made = [*edges(), *limits()]
    for kind, number, make in RANDOM:
        made += [Framed(f"{kind} {i}", make(chance)) for i in range(number)]
    usual = (framed(case.label, case.data, usual_room(case.data)) for case in made)
    for case in (*usual, *refused_with_little(made, convert), *rooms(chance)):
        if case.data not in seen:
            seen.add(case.data)
            yield case
