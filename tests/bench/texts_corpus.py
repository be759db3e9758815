"""The benchmark's contracts typed as text, and random ones to compare.

A record is: name (8-bit length and that many bytes); lent output bytes (16
bits); the text behind its length (16 bits).  Numbers are little-endian.  Texts
of the same name are one class and have one line.  The names of random ones are
empty.
"""

from typing import NamedTuple

from tests.reference.chance import Chance
from tests.reference.framing import measured, number_bytes
from tests.reference.sheets import LONGEST
from tests.reference.text_cases import TERMS
from tests.reference.text_limits import ALL, SLOWEST, all_rows_long, halves, long_chains, nests, prefixes, rings, slow
from tests.reference.text_random import any_variables, damaged, noise, sprinkled, whole, whole_choices, whole_large

RANDOM_TEXTS = 4000
SEED = 20100914


class Input(NamedTuple):
    name: str
    text: bytes
    room: int = LONGEST

    def data(self):
        name = self.name.encode()
        return bytes([len(name)]) + name + number_bytes(self.room) + measured(self.text)


# As they are typed into an editor: an order is taken, then a payment, then the
# outcome is sent.

EDITOR = (
    "a.(b.(!d (+) !e) + c)",
    "rec X. a.(b.(!d.X (+) !e) + c)",
    "rec X. (b.a.(!d.X (+) !e) + c)",
    "a.b.!d + c",
)

# Each body is a sum of the one before; the same where no sum settles what the
# next may add; and the slowest for the baseline of all that a search came upon.

WIDE_SUMS = (
    "recX.(a+a+a+a+a+a+a+a+a+a+a+a+a+a+a+a+a+a.recY.(X+X+X+X+X+X+X+X+X+X+X+X+X+X+X+X+X+a.recX.(Y+Y+Y+Y+Y+"
    "Y+Y+Y+Y+Y+Y+Y+Y+Y+Y+Y+Y+a.recY.(X+X+X+X+X+X+X+X+X+X+X+X+X+X+X+X+X+X+a.recX.(Y+Y+Y+Y+Y+Y+Y+Y+Y+Y+Y+Y+"
    "Y+Y+Y+Y+Y+Y+a.(X+X+X+X+X+X+X+X+X+X+X+X+X+X+X+X+X+X))))))"
)
WIDE_CHOICES = (
    "recX.((a(+)b)+(c(+)d)+a.recY.(X+X+X+X+X+X+X+X+X+X+X+X+X+X+X+X+X+X+X+a.recX.(Y+Y+Y+Y+Y+Y+Y+Y+Y+Y+Y+Y+"
    "Y+Y+Y+Y+Y+Y+Y+a.recY.(X+X+X+X+X+X+X+X+X+X+X+X+X+X+X+X+X+X+X+a.recX.(Y+Y+Y+Y+Y+Y+Y+Y+Y+Y+Y+Y+Y+Y+Y+Y+"
    "Y+Y+Y+Y+a.(X+X+X+X+X+X+X+X+X+X+X+X+X+X+X+X+X+X+X+X))))))"
)
WIDE_FAMILIES = (
    "recZ.(e+c+!g+!e+recX.(b+(0+0+0(+)(0(+)!c)+!e+0)+(e+0(+)0)+0+(0(+)!c)+0+!b+a.(0+0+recY.(0+(c(+)Z)+X+("
    "X+X)+X+X+X+X+(!d(+)X+X+X+!c(+)a+X)+X+0+c.((Z+c(+)(d(+)Y(+)X+X)+Y)+(f(+)Y(+)b+b)+c+(Y+Y+Y(+)g)+(0+(Y+"
    "(Y(+)Y)+Y(+)0+Y)+X(+)X+Y+Y)+(Y(+)Y(+)Y)+!a)+X)+Z)(+)!g))"
)


def labelled(made, label):
    """The texts of a group of cases whose labels begin so."""
    return [one.data.decode() for one in made if one.label.startswith(label)]


def classes():
    every, subsets = "+".join(ALL), halves(ALL)
    yield "texts, editor", EDITOR
    yield "texts, M1 to M13", [term for pair in TERMS.values() for term in pair]
    yield "texts, all subsets", [f"{subsets}+{every}"]
    yield "texts, all subsets behind", [f"{every}+{subsets}"]
    yield "texts, 20 for all subsets", [subsets]
    yield "texts, the longest sheet", [all_rows_long()]
    yield "texts, wide sums", [WIDE_SUMS]
    yield "texts, wide choices", [WIDE_CHOICES]
    yield "texts, wide families", [WIDE_FAMILIES]
    for actions, text in zip((8, 10, 12, 13), labelled(slow(), "large families united"), strict=True):
        yield f"texts, large families, {actions}", [text]
    yield "texts, sums of sums", labelled(slow(), "sums of sums")
    yield "texts, two lists", labelled(slow(), "two lists")
    yield "texts, recs one inside the other", labelled(nests(), "5 recs")
    yield "texts, the slowest found", [SLOWEST]
    yield "texts, wide chains", [one.data.decode() for one in long_chains()]
    yield "texts, 64 states", [rings(7, 9)]
    yield "texts, 19 at the very end", [all_rows_long(4)]
    yield "texts, 22 at the very end", ["a+" * 127 + "(", "0+" * 111 + prefixes(16, "a")]
    yield "texts, 23 at the very end", ["a+" * 127 + "X", "a+" * 124 + "recX.X"]


def inputs():
    for name, texts in classes():
        for text in texts:
            assert len(text) <= 256, name
            yield Input(name, text.encode())


def random_inputs():
    chance = Chance(SEED)
    for _ in range(RANDOM_TEXTS):
        make = chance.pick([whole, whole, whole_large, whole_choices, sprinkled, any_variables, damaged, damaged, noise])
        yield Input("", make(chance), chance.pick([LONGEST, 300, 60, 20, 0]))
