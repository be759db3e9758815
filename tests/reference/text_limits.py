"""Texts of the right form at the limits of what can be made into a sheet: 16
deep, variables, places, 64 states, 8 ready sets (refusals 22, 23, 19 and 20),
one behind another."""

from .framing import Framed
from .text_edges import texts
from .text_random import action_text

ALL = [action_text(action) for action in range(14)]


def framed(label, text):
    return Framed(f"{label}: {text}", text.encode())


# Depth


def prefixes(count, leaf):
    return "a." * count + leaf


def brackets(count, leaf):
    return "(" * count + leaf + ")" * count


def recs(count, leaf):
    return "".join(f"rec {'XYZ'[place % 3]}." for place in range(count)) + leaf


def depths():
    for count in (1, 2, 14, 15, 16, 17, 18):
        for leaf in ("0", "a", "!b", "a.0", "(0)", "(a)", "rec X.0", "0+0", "a+0", "0+a", "0(+)a", "a(+)0"):
            yield framed(f"{count} prefixes", prefixes(count, f"({leaf})" if "+" in leaf else leaf))
            yield framed(f"{count} brackets", brackets(count, leaf))
            yield framed(f"{count} recs", recs(count, f"({leaf})" if "+" in leaf else leaf))
    for outer in (1, 8, 15, 16):
        for make, other in ((prefixes, brackets), (brackets, prefixes), (recs, brackets), (prefixes, recs), (recs, prefixes)):
            for inner in (16 - outer, 17 - outer):
                yield framed(f"{outer} around {inner}", make(outer, other(inner, "0")))
    for mark in ("+", "(+)"):
        for left, right in ((15, 15), (16, 16), (17, 0), (0, 17), (16, 17), (17, 16)):
            yield framed("two sides", prefixes(left, "0") + mark + prefixes(right, "0"))
            yield framed("two sides", brackets(left, "0") + mark + brackets(right, "0"))
            yield framed("two sides in brackets", f"({prefixes(max(left, 1) - 1, '0')}{mark}{prefixes(max(right, 1) - 1, '0')})")
    for count in (14, 15):
        for leaf in ("X", "a.X", "(X)", "(X+0)", "(X+a)", "rec Y.X"):
            yield framed("a variable", "rec X." + prefixes(count, leaf))
    yield framed("17 deep behind blanks", " " * 30 + prefixes(16, " (0)"))
    yield framed("17 deep, the last byte", "0+" * 100 + prefixes(16, "a"))
    yield framed("17 deep, the first place", "((((((((((((((((!a))))))))))))))))")
    yield framed("17 deep in two places", brackets(17, "0") + "+" + prefixes(17, "0"))


# Variables


def variables():
    yield from texts("X", "Y", "Z", "a.X", "X+a", "a+X", "(X)", "X(+)Y", "Z+Y+X", "rec X.X", "rec Y.Y", "rec Z.Z")
    yield from texts("rec X.Y", "rec X.Z", "rec Y.X", "rec X.a.X", "rec Y.!b.Y", "rec Z.g.Z", "rec X.a.Y")
    yield from texts("rec X.(X)", "rec X.((X))", "rec X.a.(X)", "rec X.rec Y.X", "rec X.rec Y.Y", "rec X.rec Y.a.X")
    yield from texts("rec X.rec Y.a.Y", "rec X.rec Y.a.(X+Y)", "rec X.rec Y.rec Z.a.(X+b.Y+c.Z)", "rec X.rec X.a.X")
    yield from texts("rec X.rec X.X", "rec X.a.rec Y.X", "rec X.a.rec Y.Y", "rec X.a.rec Y.(X+b.Y)")
    yield from texts("rec X.a.rec Y.(X+Y)", "rec X.a.rec Y.(Y+X)", "rec X.a.rec Y.(Y(+)X)", "rec X.a.rec X.X")
    yield from texts("rec X.a.rec X.b.X", "rec X.a.rec X.b.rec X.c.X", "rec X.(a.rec X.b.X+c.X)")
    yield from texts("rec X.(c.X+a.rec X.b.X)", "rec X.a.(rec X.b.X+c.X)", "rec X.a.rec Y.b.rec X.c.(X+d.Y)")
    yield from texts("rec X.a.rec Y.b.rec X.c.Y", "rec X.(a.rec X.0+b.X)", "rec X.(a.X+X)", "rec X.(X+a.X)")
    yield from texts("rec X.(a(+)X)", "rec X.(X(+)X)", "rec X.(a.X+b.X)", "rec X.(a+b.(c+X))", "rec X.a+X")
    yield from texts("rec X.a.X+X", "rec X.a.X+b.X", "rec X.a.X(+)X", "(rec X.a.X)+X", "X+rec X.a.X", "X+rec X.X")
    yield from texts("rec X.X+X", "rec X.(a.X)+Y", "a.X+rec X.a.X", "rec X.a.b.X", "rec X.a.(b.X+c.X)")
    yield from texts("rec X.a.(b+X)", "rec X.a.(X+b)", "rec X.a.(X(+)b)", "rec X.a.(b(+)X)", "rec X.a.(X+X)")
    yield from texts("rec X.a.(X(+)X)", "rec X.0", "rec X.a", "rec X.(a+b)", "rec X.rec X.0", "rec X.rec Y.rec Z.0")
    yield from texts("a.rec X.0+b.0", "a.rec X.b+c.b", "rec X.(0+a.X)", "rec X.(0)")
    for at in range(0, 254, 36):
        front = "a+" * (at // 2)
        yield framed(f"unbound at {at}", front + "X")
        yield framed(f"unbound at {at}, more behind", front + "X+Y+Z")
        yield framed(f"under no prefix at {at + 6}", front + "rec X.X")
    yield framed("unbound, the last byte", "a+" * 127 + " Y")
    yield framed("under no prefix, the last byte", " " * 249 + "rec Z.Z")
    yield framed("blanks before it", "  a . b  +  c  .  X  ")
    yield framed("first unbound, then under no prefix", "a.Y+rec X.X")
    yield framed("first under no prefix, then unbound", "rec X.X+a.Y")
    yield framed("far behind its rec", "rec X.a.(" + "b+" * 100 + "X)")
    yield framed("under no prefix, far behind its rec", "rec X.(" + "b+" * 100 + "X)")
    for deep in (7, 8):
        yield framed("under brackets and a prefix", "rec X." + brackets(deep, "a." + brackets(14 - deep, "X")))
        yield framed("under brackets and no prefix", "a.rec X." + brackets(deep, "X"))


# Ranks and grouping


def ranks():
    yield from texts("a+b(+)c", "a(+)b+c", "a(+)b+c(+)d", "a+b(+)c+d", "(a(+)b)+c", "a+(b(+)c)", "(a+b)(+)c")
    yield from texts("a(+)(b+c)", "(a(+)b)+(c(+)d)", "a(+)b(+)c+d+e", "a+b+c(+)d", "a.b+c", "a.b(+)c", "a.(b+c)")
    yield from texts("a.(b(+)c)", "a.b+c.d", "a.b(+)c.d", "rec X.a.X+b", "rec X.a.X(+)b", "rec X.(a.X+b)")
    yield from texts("rec X.(a.X(+)b)", "b+rec X.a.X", "b(+)rec X.a.X", "a.rec X.b.X+c", "a+(b+c)", "(a+b)+c")
    yield from texts("a(+)(b(+)c)", "(a(+)b)(+)c", "a+(b(+)(c+(d(+)e)))", "(((a(+)b)+c)(+)d)+e", "a.(b+c(+)d)+e")
    yield from texts("a.(b(+)c+d)(+)e", "!a.b+!b.a(+)c", "0(+)a", "0+a", "a+0", "a(+)0", "0+0", "0(+)0")


# Places


def places():
    yield from texts("a.b+c.b", "a.b+b.b", "a.b+a.b", "a.b(+)a.b", "a.b+a.c", "a.b(+)a.c", "a.b+a", "a.b+a.0", "a+a")
    yield from texts("a+a.0", "a.0+b.0", "a+b.0", "a.0+b+c.0", "a.(0)+b.0", "a.((0))+b", "a.rec X.0+b")
    yield from texts("a.(rec X.(0))+b.0", "a.(0+0)+b.0", "a.(0(+)0)+b.0", "a.(0+0)+b.(0+0)", "a.(0+0)+a.0", "0+(0)")
    yield from texts("(0)", "a.(b)+c.b", "a.(b+c)+d.(b+c)", "a.(b+c)+a.b+a.c", "a.(b(+)c)+a.b", "a.(b+c)+a.(c+b)")
    yield from texts("a.((b+c))+d.b", "a.(b.c)+b.c", "a.b.c+b.b.c", "a.rec X.a.X", "rec X.a.(X)", "rec X.a.rec Y.X")
    yield from texts("rec X.a.rec Y.(X)", "rec X.a.a.X", "rec X.a.(a.X)", "a.rec X.a.(X+0)", "rec X.a.(X+b)")
    yield from texts("rec X.(a.X+b.(X))", "rec X.(a.X+b.(X+c))", "rec X.(a.X+b.(X(+)c))", "rec X.(a.X+a.b.X)")
    yield from texts("rec X.(a.X+a.rec Y.b.(X+Y))", "rec X.rec Y.(a.X+b.Y)", "rec X.(a.rec Y.(b.X+c.Y)+d)")
    yield from texts("rec X.a.(b.X+b.rec Y.a.Y)", "rec X.a.X+rec X.a.X", "rec X.a.X+rec Y.a.a.Y")
    yield from texts("rec X.a.a.X(+)rec Y.a.a.a.Y", "a.a.a", "a.a+a", "(a.b+a.c)+(a.d(+)b)")
    yield from texts("a.(b.c+b.d)+a.(b.e(+)b)", "a.b.c+a.b.d+a.b", "a.(b.c)+a.rec X.b.c")
    yield framed("the start again", "rec X.(a.X+b.rec Y.(c.X+d.Y))")
    yield framed("the start within", "rec X.a.rec Y.(X+b.Y)")
    yield framed("every name", "+".join(f"{one}.{one}" for one in ALL))


def numberings():
    """Breadth first by ascending action, whatever the order of the text."""
    yield framed("falling", "+".join(f"{one}.a" for one in reversed(ALL)))
    yield framed("rising", "+".join(f"{one}.a" for one in ALL))
    yield framed("mixed", "+".join(f"{ALL[place * 5 % 14]}.{ALL[place * 3 % 14]}" for place in range(14)))
    yield framed("falling, two deep", "!b.(b.b+a.a)+!a.(!b.b+!a.a)+b.(!c.c+c.a)+a.(b.b+a.a)")
    yield framed("found again", "rec X.(b.rec Y.(b.Y+a.X)+a.rec Z.(a.b.X+b.Z))")
    yield framed("takes before sends", "!a.a+g.g+!g.b+a.c")
    yield framed("by (+)", "!c.a(+)c.b(+)!a.c(+)a.d")
    yield framed("a set before its parts", "a.b+a.c+b.c+c.b")


# States


def ring(size, name="X", action="a"):
    return f"rec {name}." + f"{action}." * size + name


def rings(*sizes):
    """Rings of a side by side: as many states as the least common multiple of
    their sizes, and the start."""
    return "+".join(map(ring, sizes))


def states():
    for sizes in ((1,), (2, 3), (3, 4, 5), (7, 8), (7, 9), (8, 9), (5, 13), (2, 7, 9), (11, 13), (13, 14), (7, 8, 9, 11)):
        yield framed("rings", rings(*sizes))
    for more in ("", "+b", "+b.0", "+a.b", "+b.c", "+b.b+c.c", "+b.(0+0)", "+b.c.0"):
        yield framed("61 states and more", rings(3, 4, 5) + more)
        yield framed("64 states and more", rings(7, 9) + more)
    for first in ("b", "b.c", "a", "!g.!g"):
        yield framed("more before 64 states", first + "+" + rings(7, 9))
        yield framed("more before 61 states", first + "+" + rings(3, 4, 5))
    for count in (2, 3, 4, 5):
        yield framed("61 states and a row", rings(3, 4, 5) + "+b." + "a." * count + "0")
    for tail in range(5):
        yield framed(f"{max(63 + tail, 64)} states, the last behind the one before", "a." * tail + ring(7) + "+" + ring(9))
        yield framed(f"{max(60 + tail, 61)} states, the last behind the one before", "a." * tail + ring(4) + "+" + rings(3, 5))
    yield framed("doubling", "rec X.(a.X+b.X+a.(a.(a.(a.(a+b)+b.(a+b))+b.(a.(a+b)+b.(a+b)))+b.(a+b)))")
    wide = [f"{one}.({'+'.join(f'{other}.{other}' for other in ALL[:4])})" for one in ALL]
    for count in (1, 4, 9, 10):
        yield framed("wide", "+".join(wide[:count]))
    pairs = [f"{one}.{other}" for one in ALL[:7] for other in ALL[:7]]
    yield framed("sets of one to seven places", "+".join(pairs)[:256].rpartition("+")[0])
    yield framed("17 states in a row", prefixes(16, "0"))


# Ready sets


def choice(items):
    return "(+)".join(items)


MASKS = ["0", "a", "b", "a+b", "c", "a+c", "b+c", "a+b+c", "d", "a+d", "b+d"]


def ready_sets():
    for count in range(1, 12):
        yield framed(f"{count} ready sets", choice(MASKS[:count]))
        yield framed(f"{count} ready sets, falling", choice(MASKS[:count][::-1]))
        yield framed(f"{count} ready sets behind an action", f"!g.({choice(MASKS[:count])})")
    for count in (7, 8, 9, 14):
        yield framed(f"{count} of one action", choice(ALL[:count]))
        yield framed(f"{count} of one action, falling", choice(ALL[::-1][:count]))
        yield framed(f"{count} of one action, twice", choice(ALL[:count] * 2))
        yield framed(f"{count} beside an action", "a+(" + choice(ALL[:count]) + ")")
        yield framed(f"{count} behind four actions", "a.b.c.d.(" + choice(ALL[:count]) + ")")
    yield from texts("(a(+)b)+(c(+)d)+(e(+)f)", "(a(+)b(+)c)+(d(+)e(+)f)", "(a(+)b)+(a(+)b)")
    yield from texts("(a(+)b(+)c)+(a(+)b(+)c)", "(a(+)0)+(b(+)0)+(c(+)0)", "(a(+)0)+(b(+)0)+(c(+)0)+(d(+)0)")
    yield from texts("(a(+)0)+(b(+)0)+(c(+)0)+(d(+)0)+a", "(a(+)b)+(c(+)d)+(e(+)f)+(g(+)g)", "a+(b(+)c)", "a+(b(+)a)")
    four = ["a(+)b(+)c(+)d", "e(+)f(+)g(+)!a", "a(+)b(+)c(+)e", "e(+)f(+)g(+)!a(+)!b", "a(+)b(+)c(+)d(+)e"]
    for one in four[:1] + four[4:]:
        for other in four[1:4]:
            yield framed("two places behind an action", f"!g.({one})+!g.({other})")
            yield framed("two places behind an action of (+)", f"!g.({one})(+)!g.({other})(+)a")
    for count in (8, 9):
        rest = choice(ALL[4:count])
        last = f"a.rec X.a.a.a.a.a.a.(a.X(+)b(+)c(+)d)+a.rec X.a.a.a.a.a.a.a.(a.X(+){rest})"
        yield framed(f"{count} ready sets in the last of 58 states alone", last)
        yield framed(f"{count} at the end of 16", prefixes(14, f"({choice(ALL[:count])})"))


def halves(actions):
    """Each action or nothing: all subsets of them are ready sets."""
    return "+".join(f"({one}(+)0)" for one in actions)


def families():
    """Parts with many more ready sets than their state has."""
    for count in (3, 4, 5, 9, 13, 14):
        some = ALL[:count]
        yield framed("all subsets", halves(some))
        for missing in (0, 1, 2, 3, 4):
            if missing < count:
                rest = "+".join(some[missing:])
                yield framed(f"all subsets with all but {missing}", halves(some) + "+" + rest)
                yield framed(f"all but {missing} with all subsets", rest + "+" + halves(some))
                yield framed(f"all subsets with all but the last {missing}", f"{halves(some)}+{'+'.join(some[: count - missing])}")
    every, all_subsets = "+".join(ALL), halves(ALL)
    yield framed("all subsets behind an action", f"a.({all_subsets}+{every})+b")
    yield framed("all subsets, then brackets", f"({all_subsets})+({every})")
    yield framed("all subsets, behind the rest", f"{every}+({all_subsets})")
    yield framed("all subsets and another choice", f"{all_subsets}+{every}(+)a(+)b")
    yield framed("all subsets twice", f"({all_subsets})+({all_subsets})")
    yield framed("all subsets twice by (+)", f"{halves(ALL[:9])}+{'+'.join(ALL[:9])}(+)({halves(ALL[5:])})+{'+'.join(ALL[5:])}")
    yield framed("all pairs", "+".join(f"({one}(+){other})" for one, other in zip(ALL, ALL[1:])) + f"+{every}")
    yield framed("all subsets for ever", f"rec X.({halves(ALL[:10])}+{'+'.join(f'{one}.X' for one in ALL[:10])})")
    lists = "(" + choice(f"{one}+{other}" for one, other in zip(ALL, ALL[3:] + ALL[:3])) + ")"
    yield framed("a choice of 14, doubled", f"rec X.({lists}+!g.(X+X+X+X+X+X+X+X+{every}))")
    yield framed("cut at eight it would be right", halves(ALL[:3]) + "+" + "+".join(ALL[:3]))


def long_chains():
    for mark, count in (("+", 120), ("(+)", 64)):
        for items in (["a"], ["a", "b"], ["0"], ["0", "a"], ALL[:7]):
            text = mark.join(items[place % len(items)] for place in range(count))
            yield framed(f"{count} items", text[:256].rstrip("(+)"))
    yield framed("mixed chain", "".join(f"{ALL[place % 7]}{'+' if place % 3 else '(+)'}" for place in range(95)) + "a")
    yield framed("a chain of brackets", "+".join(["(a)"] * 64))
    yield framed("a chain of prefixes", "+".join(["a.b"] * 64))
    yield framed("a chain of variables", "rec X.a.(" + "+".join(["X"] * 120) + ")")
    yield framed("a chain of variables by (+)", "rec X.a.(" + choice(["X"] * 60) + ")")
    yield framed("a chain of recs", "+".join(["rec X.0"] * 32))


def all_rows_long(tail=3, more=0):
    """Each of 64 states has eight ready sets and all actions, so that the sheet
    is as long as it can be.  Z stays in every state; with other lengths of the
    tail, or other choices, there are more states or ready sets."""
    z = "+".join(f"{one}.Z" for one in ALL) + "".join(f"(+){one}.Z" for one in ALL[: 7 + more])
    return f"rec Z.({z})(+)" + "a." * tail + f"{ring(4)}(+){ring(3)}(+){ring(5)}"


def slow():
    """Much to unite, again and again: parts with thousands of ready sets, in
    states with few."""
    every = "+".join(ALL)
    for count in (8, 9):
        subsets, rest = halves(ALL[:count]), "+".join(ALL[:count])
        deep = "!g.rec Y.(X+X+X+X+!f.rec Z.(Y+Y+Y+X+!e.rec X.(Z+Y+Z+Y+Z+!d.(X+Z+X))))"
        yield framed("sums of sums", f"rec X.({subsets}+{deep})")
        yield framed("sums of sums, all there", f"rec X.({subsets}+{rest}+{deep})")
    for count in (8, 10, 12, 13):
        parts = "+".join(f"(X+{one})" for one in ALL[:20 - count])
        yield framed("large families united", f"rec X.({halves(ALL[:count])}+!g.({parts}+{every}))+{every}")
    lists = [choice(halves(ALL[place : place + 4]) for place in places) for places in ((0, 5, 9), (2, 7, 10))]
    yield framed("two lists", f"({lists[0]})+({lists[1]})+{every}")
    yield framed("long rows", all_rows_long())


def nest(levels, first, part):
    """Recs one inside the other: each but the first is a choice of what `part`
    makes of the variable around it, as often as there is room, and of the next
    behind an action."""

    def made(count):
        text, around = f"recX.({first}", "X"
        for level in range(1, levels):
            variable = "XYZ"[level % 3]
            text += f"(+)a.rec{variable}.(" + "(+)".join([part(around)] * count)
            around = variable
        return text + ")" * levels

    return max((made(count) for count in range(1, 60) if len(made(count)) <= 256), key=len)


#: The slowest known of the texts that a search found by changing texts at random.
SLOWEST = (
    "recX.(g(+)!d(+)f(+)!c+!e(+)d(+)b(+)!g(+)e(+)!f(+)!e(+)a(+)!c(+)a.recY.(X+X(+)!a+X+X(+)a.recZ.(X+X+Y("
    "+)a.recX.(Z+!b+Y(+)Y+!e(+)(Z(+)Y)+Z(+)a.recY.(X+X+X(+)X+X(+)X+X+X(+)X+X(+)X+X+X(+)X+X+X(+)X+X+X(+)X+"
    "X+X(+)X+X+X(+)X+X+X(+)X+X+X(+)X+X+X(+)X+X+X(+)X+X+X)))))"
)

#: Slow for a program that keeps what it found of the first recs alone: recs that nobody names come first.
UNNAMED = (
    (
        "recX.recX.recX.recX.recX.recX.recX.recX.recX.recX.recX.recX.recX.recX.recX.0(+)recX.(d+b(+)e+!c("
        "+)!d(+)f+g(+)!f(+)!g(+)!b(+)c(+)!e(+)f.recY.(c+X(+)X(+)X+X(+)a.recZ.(Y+Y+Y+Y+Y(+)!a.recX.(d+Z(+)"
        "Z(+)g+Z(+)Z+Z(+)d+Z(+)a.recY.(X+X+X(+)X+X(+)X+X(+)X+X)(+)c+Y))))"
    ),
    (
        "recX.recX.0(+)recX.f(+)recX.0(+)recX.0(+)recX.0(+)recX.0(+)recX.(a+b(+)c(+)d(+)e(+)!f(+)g+!a(+)!"
        "b(+)!d(+)a.recY.((!g(+)X)+X(+)X(+)X+X(+)(!g(+)X)+X(+)X+X(+)(X(+)X)+X(+)a.recZ.(Y+Y(+)Y+!b(+)Y+Y("
        "+)Y+Y(+)!c(+)Y+Y(+)a.recX.(Z+Z+Z(+)!e(+)a.recY.(X+X+X(+)X+X)))))"
    ),
)


def nests():
    parts = (lambda v: v, lambda v: f"{v}+{v}", lambda v: f"b+{v}", lambda v: f"{v}+{v}+{v}", lambda v: f"({v}(+)c)+{v}")
    for levels in (2, 3, 4, 5):
        for count in (2, 3, 9):
            for part in parts:
                yield framed(f"{levels} recs, one inside the other", nest(levels, choice(ALL[:count]), part))
    for others in (1, 5, 7, 8, 14, 15, 16, 17, 27, 28, 29, 30, 31, 32, 33):
        front = choice(("recX." * min(others, 14) + "0", "recY." * min(others - 14, 14) + "a", "recZ." * (others - 28) + "0"))
        yield framed(f"{others} recs before", f"{front}(+)recX.(a(+)b.recY.(X(+)X+c(+)b.recZ.(Y+X+X(+)a.(Z+Y))))")
        yield framed(f"{others} recs before, in a sum", f"({front})+recX.(a+b.recY.(X+c(+)b.recZ.(Y+X(+)!a.(Z+Y))))")
    for body in ("X", "Y", "X+Y", "X(+)Y", "(X)", "recZ.X", "b.Z"):
        yield framed("a body that is a variable", f"recX.(a+b.recY.(c.Y+X+c.recZ.{body}))")
        yield framed("a body that is a variable, more behind", f"recX.(a+b.recY.(c.Y+X+c.(recZ.{body}+recX.Y+!d.X)))")
    yield framed("the slowest", SLOWEST)
    for text in UNNAMED:
        yield framed("recs nobody names", text)


# One refusal behind another


def orders_of_faults():
    many, nine = rings(8, 9), choice(ALL[:9])
    yield from texts("X)", "(X", "X+", "X h", ")X", "h+X", "+X", "a b+X", "X+a b", "rec X.X+(", "(+rec X.X", "a.X+!")
    yield framed("too deep and unbound", prefixes(17, "0") + "+X")
    yield framed("unbound and too deep", "X+" + prefixes(17, "0"))
    yield framed("unbound, too deep", prefixes(17, "X"))
    yield framed("too deep and another byte", prefixes(17, "0") + "+h")
    yield framed("another byte and too deep", "h+" + prefixes(17, "0"))
    yield framed("many states and unbound", many + "+X")
    yield framed("unbound and many states", "X+" + many)
    yield framed("9 ready sets and unbound", nine + "(+)X")
    yield framed("under no prefix and 9 ready sets", "rec X.X(+)" + nine)
    yield framed("many states and another byte", many + "+h")
    yield framed("9 ready sets and no end", nine + "(+)")
    for count in (8, 9):
        some = choice(ALL[:count])
        yield framed(f"{count} ready sets at the start, 73 states", f"{some}(+){many}")
        yield framed(f"{count} ready sets at the start, 63 states", f"{some}(+){rings(3, 4, 5)}")
        yield framed(f"73 states, {count} ready sets behind an action", f"{many}+b.({some})")
        yield framed(f"63 states, {count} ready sets behind an action", f"{rings(3, 4, 5)}+b.({some})")
        yield framed(f"all subsets of {count}, 73 states", f"{many}+{halves(ALL[:count])}")
    for tail, more in ((2, 0), (3, 0), (4, 0), (3, 1), (4, 1), (0, 7)):
        yield framed(f"long rows, {61 + tail} states, {8 + more} ready sets", all_rows_long(tail, more))


def limits():
    for group in (depths, variables, ranks, places, numberings, states, ready_sets, families, long_chains, slow, nests, orders_of_faults):
        yield from group()
