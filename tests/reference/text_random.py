"""Random texts: of random terms, with blanks anywhere, damaged, and noise.

A term here is a tuple: ("0",), ("use", variable), ("act", action, what follows
it or None), ("rec", variable, body), ("+", left, right), ("(+)", left, right).
It says nothing of brackets: these are put where the term needs them, and
sometimes where it does not.
"""

from typing import NamedTuple

from .actions import MOST_NAMES, name_of, takes

VARIABLES = "XYZ"

#: Every byte that the grammar knows, and some that it does not.
KNOWN = b"0XYZabcdefg!.+()rec"
UNKNOWN = b"\0\t\n\r,-/1AWx[]hq\x7f\x80\xa0\xff"


class Shape(NamedTuple):
    """How large a random term gets: so many choices, prefixes and recs; names
    of actions; one part in `choices` is + or (+), one of the others in `recs`
    is a rec; one variable in `faulty` may be any."""

    size: int
    names: int = 3
    choices: int = 2
    recs: int = 3
    faulty: int = 0


def random_action(chance, names):
    return chance.below(names) + (MOST_NAMES if chance.one_in(3) else 0)


def random_leaf(chance, shape, usable):
    if shape.faulty and chance.one_in(shape.faulty):
        return ("use", chance.pick(VARIABLES))
    if usable and not chance.one_in(3):
        return ("use", chance.pick(sorted(usable)))
    return ("0",) if chance.one_in(4) else ("act", random_action(chance, shape.names), None)


def random_term(chance, shape, usable=frozenset(), waiting=frozenset()):
    """A term whose variables are right: those that are usable are under a
    prefix, those that wait are not yet."""
    if shape.size == 0:
        return random_leaf(chance, shape, usable)
    less = shape._replace(size=shape.size - 1)
    if chance.one_in(shape.choices):
        left = chance.below(shape.size)
        sizes = left, shape.size - 1 - left
        sides = (random_term(chance, shape._replace(size=size), usable, waiting) for size in sizes)
        return (chance.pick(["+", "+", "(+)"]), *sides)
    if chance.one_in(shape.recs):
        name = chance.pick(VARIABLES)
        return ("rec", name, random_term(chance, less, usable - {name}, waiting | {name}))
    return ("act", random_action(chance, shape.names), random_term(chance, less, usable | waiting))


def action_text(action):
    return ("" if takes(action) else "!") + "abcdefg"[name_of(action)]


#: How tightly each kind of term binds; what is not here binds tightest.
RANKS = {"(+)": 0, "+": 1}
TIGHTEST = 2


def written(term, extra=lambda: False, wanted=0):
    """The text of a term where one that binds so tightly is wanted; brackets
    that it does not need where `extra` says so."""
    rank = RANKS.get(term[0], TIGHTEST)
    if rank < wanted or extra():
        return f"({written(term, extra)})"
    match term:
        case ("use", name):
            return name
        case ("act", action, None):
            return action_text(action)
        case ("act", action, then):
            return f"{action_text(action)}.{written(then, extra, TIGHTEST)}"
        case ("rec", name, body):
            return f"rec {name}.{written(body, extra, TIGHTEST)}"
        case (mark, left, right):
            return written(left, extra, rank) + mark + written(right, extra, rank + 1)
    return "0"


def small_shape(chance):
    return Shape(chance.between(1, 12), chance.pick([1, 2, 3, 7]), chance.pick([2, 2, 3]), chance.pick([2, 3, 6]))


def text_of(chance, shape, extra=8):
    return written(random_term(chance, shape), lambda: chance.one_in(extra)).encode()


def whole(chance):
    return text_of(chance, small_shape(chance))


def whole_large(chance):
    """As much as 256 bytes may hold."""
    shape = Shape(chance.between(25, 45), chance.pick([2, 4, 7]), chance.pick([2, 2, 3]), chance.pick([3, 4, 6]))
    return text_of(chance, shape, 30)[:256]


def whole_choices(chance):
    """Mostly + and (+): many ready sets."""
    return text_of(chance, Shape(chance.between(4, 30), chance.pick([3, 7]), 1, 6), 12)


def with_blanks(chance, text):
    """One to twelve blanks put in, anywhere."""
    for _ in range(chance.between(1, 12)):
        at = chance.below(len(text) + 1)
        text = text[:at] + b" " + text[at:]
    return text


def sprinkled(chance):
    return with_blanks(chance, whole(chance))


def any_variables(chance):
    """One variable in three may be any: unbound, or under no prefix."""
    return text_of(chance, small_shape(chance)._replace(faulty=3, recs=2))


def any_byte(chance):
    return bytes([chance.pick(KNOWN if chance.below(4) else UNKNOWN)])


def changed(chance, text):
    at = chance.below(len(text))
    return text[:at] + any_byte(chance) + text[at + 1 :]


def left_out(chance, text):
    at = chance.below(len(text))
    return text[:at] + text[at + 1 :]


def put_in(chance, text):
    at = chance.below(len(text) + 1)
    return text[:at] + any_byte(chance) + text[at:]


def cut(chance, text):
    return text[: chance.below(len(text))]


def exchanged(chance, text):
    """Two neighbours exchanged."""
    at = chance.below(len(text))
    return text[:at] + text[at : at + 2][::-1] + text[at + 2 :]


DAMAGES = changed, changed, left_out, put_in, cut, exchanged


def damaged(chance):
    """A text with one fault, or two; sometimes with blanks."""
    text = sprinkled(chance) if chance.one_in(3) else whole(chance)
    for _ in range(chance.pick([1, 1, 1, 2])):
        text = chance.pick(DAMAGES)(chance, text or b"a")
    return text


def noise(chance):
    """Bytes that the grammar knows, in any order."""
    return bytes(chance.pick(KNOWN) for _ in range(chance.below(20)))


#: How many random texts of each kind.
RANDOM = (
    ("whole", 230, whole),
    ("whole, large", 70, whole_large),
    ("choices", 80, whole_choices),
    ("with blanks", 90, sprinkled),
    ("any variables", 90, any_variables),
    ("damaged", 260, damaged),
    ("noise", 60, noise),
)
