"""The grammar of contracts typed as text (document 02, request 7/13 "Contracts
typed as text"): the tree of a text, its depth, and the byte at fault.

    whole  ::=  sums  |  whole (+) sums
    sums   ::=  tight  |  sums + tight
    tight  ::=  0  |  V  |  action  |  action . tight  |  rec V . tight  |  ( whole )
    V      ::=  X  |  Y  |  Z
    action ::=  a  | ... |  g  |  !a  | ... |  !g

It derives bytes without blanks: these are dropped first, wherever they are.
"""

from functools import cache, lru_cache
from typing import Any, NamedTuple

from .actions import MOST_NAMES

BLANK = ord(" ")
MOST_DEEP = 16
NAMES, VARIABLES = b"abcdefg", b"XYZ"
REC, INTERNAL = b"rec", b"(+)"


# Trees.  `at` is the offset, blanks counted, of the byte that makes the term:
# the first of an action, of rec or of (+).


class End(NamedTuple):
    """A written 0; or the end behind an action with no dot after it, which
    stands where that action ends."""

    at: int


class Variable(NamedTuple):
    at: int
    name: int


class Prefix(NamedTuple):
    at: int
    action: int
    then: Any


class Rec(NamedTuple):
    at: int
    name: int
    body: Any


class Bracket(NamedTuple):
    at: int
    body: Any


class Sum(NamedTuple):
    """External choice."""

    at: int
    left: Any
    right: Any


class Choice(NamedTuple):
    """Internal choice."""

    at: int
    left: Any
    right: Any


def depth_of(term):
    """ "each bracket, prefix and rec over a place in the tree counting one and
    an action counting itself" """
    match term:
        case End() | Variable():
            return 0
        case Prefix():
            return 1 + depth_of(term.then)
        case Rec() | Bracket():
            return 1 + depth_of(term.body)
        case _:
            return max(depth_of(term.left), depth_of(term.right))


# Derivations


def without_blanks(text):
    """The bytes that are no blanks, and the offset of each."""
    offsets = [offset for offset, byte in enumerate(text) if byte != BLANK]
    return bytes(text[offset] for offset in offsets), offsets


@lru_cache(8192)
def tree_of(text, most_deep=MOST_DEEP):
    """The tree of a text, None if the grammar does not derive it within the
    depth.  Each function below is a rule of the grammar, tried on the bytes
    from `begin` to `end` with so much depth left."""
    letters, offsets = without_blanks(text)
    offsets.append(len(text))

    def splits(mark, begin, end):
        """Where the mark stands, the last place first."""
        at = letters.rfind(mark, begin, end)
        while at >= 0:
            yield at
            at = letters.rfind(mark, begin, at + len(mark) - 1)

    @cache
    def whole(begin, end, depth):
        for at in splits(INTERNAL, begin, end):
            right = sums(at + len(INTERNAL), end, depth)
            left = whole(begin, at, depth) if right else None
            if left:
                return Choice(offsets[at], left, right)
        return sums(begin, end, depth)

    @cache
    def sums(begin, end, depth):
        for at in splits(b"+", begin, end):
            right = tight(at + 1, end, depth)
            left = sums(begin, at, depth) if right else None
            if left:
                return Sum(offsets[at], left, right)
        return tight(begin, end, depth)

    @cache
    def tight(begin, end, depth):
        part = letters[begin:end]
        if part == b"0":
            return End(offsets[begin])
        if len(part) == 1 and part in VARIABLES:
            return Variable(offsets[begin], part[0])
        if depth == 0:
            return None
        if part[:1] == b"(" and part[-1:] == b")":
            body = whole(begin + 1, end - 1, depth - 1)
            return body and Bracket(offsets[begin], body)
        if part[:3] == REC and part[3:4] and part[3:4] in VARIABLES and part[4:5] == b".":
            body = tight(begin + 5, end, depth - 1)
            return body and Rec(offsets[begin], part[3], body)
        return prefixed(begin, end, depth)

    def prefixed(begin, end, depth):
        """action | action . tight"""
        sends = letters[begin:end].startswith(b"!")
        name = letters[begin + sends : end][:1]
        if not name or name not in NAMES:
            return None
        action = NAMES.index(name) + (MOST_NAMES if sends else 0)
        behind = begin + sends + 1
        if behind == end:
            return Prefix(offsets[begin], action, End(offsets[behind]))
        then = tight(behind + 1, end, depth - 1) if letters[behind:].startswith(b".") else None
        return then and Prefix(offsets[begin], action, then)

    return whole(0, len(letters), most_deep)


# The byte at fault.  What is still to be read is a list, the next thing last.


class OneOf(NamedTuple):
    """One of these bytes."""

    letters: bytes


class Tight(NamedTuple):
    """A tight term, with so much depth left."""

    depth: int


class Behind(NamedTuple):
    """What may stand behind an action: a dot and a tight term, or nothing."""

    depth: int


class More(NamedTuple):
    """What may stand behind a tight term: + or (+), a tight term and more, or
    nothing."""

    depth: int


def next_in_tight(byte, depth):
    """What is to be read behind the first byte of a tight term, None if there
    is none that begins so."""
    if byte in b"0XYZ":
        return []
    if depth == 0:
        return None
    if byte in NAMES:
        return [Behind(depth - 1)]
    if byte == ord("!"):
        return [Behind(depth - 1), OneOf(NAMES)]
    if byte == ord("r"):
        return [Tight(depth - 1), OneOf(b"."), OneOf(VARIABLES), OneOf(b"c"), OneOf(b"e")]
    if byte == ord("("):
        return [OneOf(b")"), More(depth - 1), Tight(depth - 1)]
    return None


def next_behind(wanted, byte):
    """What is to be read behind a byte that stands where something may be
    left out; None if it begins nothing of the kind."""
    again = [More(wanted.depth), Tight(wanted.depth)]
    match wanted, chr(byte):
        case Behind(), ".":
            return [Tight(wanted.depth)]
        case More(), "+":
            return again
        case More(), "(":
            return [*again, OneOf(b")"), OneOf(b"+")]
    return None


def read_on(to_read, byte):
    """What is to be read behind the byte, None if it can not stand there."""
    to_read = list(to_read)
    while to_read:
        match wanted := to_read.pop():
            case OneOf():
                return to_read if byte in wanted.letters else None
            case Tight():
                inside = next_in_tight(byte, wanted.depth)
                return None if inside is None else to_read + inside
            case _:
                inside = next_behind(wanted, byte)
                if inside is not None:
                    return to_read + inside
    return None


def byte_at_fault(text, most_deep=MOST_DEEP):
    """The offset of the first byte with which no text of the grammar within
    the depth can go on; the length if the text only ends too early; None if
    the grammar derives it.  A blank is never at fault."""
    to_read = [More(most_deep), Tight(most_deep)]
    for offset, byte in enumerate(text):
        if byte != BLANK:
            to_read = read_on(to_read, byte)
            if to_read is None:
                return offset
    left_out = all(isinstance(wanted, (Behind, More)) for wanted in to_read)
    return None if left_out else len(text)
