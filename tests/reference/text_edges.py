"""Texts at every edge of the grammar and of their length (refusals 1 and 22),
each fault at its first and last possible place."""

from .framing import Framed
from .texts import LONGEST_TEXT

#: Texts in which everything occurs that the grammar has.
SAMPLES = ["rec X.(a.X+!b)(+)c.(0(+)d.!e)", "(!g.rec Y.rec Z.f.Y+0)(+)(e+rec X.c.(X(+)b.X))"]


def texts(*listed):
    for text in listed:
        yield Framed(text, text.encode())


def lengths():
    yield Framed("nothing", b"")
    most = LONGEST_TEXT
    for length in (1, 2, 3, most - 2, most - 1, most, most + 1, most + 2):
        yield Framed(f"{length} blanks", b" " * length)
        yield Framed(f"an action and {length} blanks", b"a" + b" " * length)
        yield Framed(f"{length} blanks and an action", b" " * length + b"a")
    for last in ("a", "!a", "a+", "a+X"):
        yield Framed(f"{254 + len(last)} bytes, {last} last", b"a+" * 127 + last.encode())
    for last in ("a", "!a", "0  ", "X", "a.0", "a.b", "a.b ", "a(+)"):
        yield Framed(f"{252 + len(last)} bytes, {last} last", b"a(+)" * 63 + last.encode())
    for length in (most, most + 1):
        for text in ("0", "a(", "a ?", "X", "a+X", "rec X.X", "a.b", "(" * 17, ")"):
            padded = text + " " * (length - len(text))
            yield Framed(f"{text} and blanks to {length}", padded.encode())
            turned = " " * (length - len(text)) + text
            yield Framed(f"blanks and {text} to {length}", turned.encode())
    for length in (300, 511, 512, 513, 768, 1000, 2118, 4096):
        yield Framed(f"{length} bytes", (b"a+" * length)[: length - 1] + b"a")
        yield Framed(f"{length} blanks", b" " * length)


def blanks():
    for text in (*SAMPLES, "a.b", "a(+)b", "!a.0"):
        for at in range(len(text) + 1):
            spaced = text[:at] + " " + text[at:]
            yield Framed(f"a blank at {at}: {spaced}", spaced.encode())
        yield Framed(f"blanks everywhere: {text}", " ".join(" " + text + " ").encode())
        yield Framed(f"many blanks everywhere: {text}", ("   ".join(text)).encode()[:256])
        yield Framed(f"no blanks: {text}", text.replace(" ", "").encode())
    yield from texts("a b", "a  b", "a 0", "0 0", "X Y", "a X", "! a", "!  a", "! ", "r e c X . a . X", "re cX.a.X")
    yield from texts("( + )", "a ( + ) b", "a (+ ) b", "a ( +) b", "a( +)b", "a(+ )b", "a ( + b )", "a ( b )")
    yield from texts("a . b", "a. b", "a .b", "a .")


def other_blanks():
    """What looks like a blank and is none."""
    for byte in (0, 9, 10, 11, 12, 13, 0x1F, 0x5F, 0x85, 0xA0):
        for text in (b"a.b", b"rec X.a.X"):
            for at in (0, 1, 3, len(text)):
                yield Framed(f"byte {byte} at {at} of {text.decode()}", text[:at] + bytes([byte]) + text[at:])
        yield Framed(f"byte {byte} behind a blank", b"a " + bytes([byte]) + b" .b")


def single_bytes():
    for byte in range(256):
        yield Framed(f"byte {byte}", bytes([byte]))
        yield Framed(f"byte {byte} between a and b", b"a" + bytes([byte]) + b"b")


#: What stands before a byte, so that each rule of the grammar is met with every
#: kind of byte that it knows, and some that it does not.
BEFORE = [
    "a.",
    "!",
    "!a",
    "0",
    "r",
    "re",
    "rec",
    "recX",
    "recX.",
    "(",
    "(a",
    "(a)",
    "((a)",
    "a+",
    "a(",
    "a(+",
    "a(+)",
    "(a(",
    "(X",
    "recY.Y",
    "b.c",
    "a.a.a.a.a.a.a.a.a.a.a.a.a.a.a.a",
    "a.a.a.a.a.a.a.a.a.a.a.a.a.a.a.a.",
    "((((((((((((((((",
    "((((((((((((((((0",
    "((((((((((((((((0+",
    "((((((((((((((((0(",
    "((((((((((((((((0(+)",
    "(((((((((((((((a",
    "(((((((((((((((a.",
    "(((((((((((((((!",
    "(((((((((((((((recX.",
]


def contexts():
    for before in BEFORE:
        for byte in b"0Xaceg!.+()rh\xff":
            yield Framed(f"byte {byte} behind {before}", before.encode() + bytes([byte]))


def changes():
    """Texts cut at every byte, and with each byte left out, doubled, or
    exchanged with the next."""
    for sample in SAMPLES:
        text = sample.encode()
        for at in range(len(text)):
            yield Framed(f"first {at} bytes of {sample}", text[:at])
            yield Framed(f"without byte {at}: {sample}", text[:at] + text[at + 1 :])
            yield Framed(f"byte {at} doubled: {sample}", text[: at + 1] + text[at:])
            yield Framed(f"bytes {at} and {at + 1} exchanged: {sample}", text[:at] + text[at : at + 2][::-1] + text[at + 2 :])


def forms():
    yield from texts("0", "a", "g", "!a", "!g", "h", "!h", "A", "x", "1", "00", "aa", "a0", "0a", "Xa", "aX", "!!a")
    yield from texts("!0", "!X", "!(a)", "!", "(", ")", "()", ")(", "(a", "a)", "(a))", "((a)", "(a)", "((a))", "(0)")
    yield from texts("(a)(b)", "(a)b", "a(b)", "a()", "(()", "+", "(+)", "+a", "a+", "(+)a", "a(+)", "a++b", "a+(+)b")
    yield from texts("a(+)+b", "a(+)(+)b", "(+", "a(+", "a(+b", "a(+b)", "a(+)(b)", "a+(b)", "a+(b", "(a+)b")
    yield from texts("(a(+))b", "a+)", "(+a)", "a(+)b)", "(a(+)b", "((+)a)", "a((+)b)", "a(+)b(+)c", "a+b+c", ".")
    yield from texts(".a", "a.", "a..b", "a.+b", "a.(+)b", "0.a", "X.a", "(a).b", "a.(b).c", "a.b.c", "a.(b.c)")
    yield from texts("a.)", "(a.)", "a.!", "a.!b", "r", "re", "rec", "recX", "recX.", "rec.a", "rec X a.X", "rec X+a")
    yield from texts("rec X(+)a", "rec(X).a", "rec x.a", "rec W.a", "rec a.a", "rec XY.a", "rec X.Y.a", "rec X..a")
    yield from texts("rec X.+a", "rec 0.a", "rec !a.a", "Rec X.a", "REC X.a", "reX.a", "rcX.a", "ecX.a", "c", "e")
    yield from texts("ec", "e.c", "!e.!c", "rec X.c", "rec X.e.c.X", "rec X.rec Y.e", "r.a", "!r", "a.rec", "a.r")
    yield from texts("a+r", "arecX.a", "rec X.a.X b", "rec X.a.X.b", "rec X.(a.X)b", "a=b", "a|b", "a,b", "a;b")
    yield from texts("a-b", "a*b", "a.b.", "tau.a", "a.1", "\u0430", "a\u2295b")


def edges():
    for group in (lengths, blanks, other_blanks, single_bytes, contexts, changes, forms):
        yield from group()
