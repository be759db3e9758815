"""The data files: a program has one input, so the cases follow one another,
each as a 16-bit length and that many bytes."""

from typing import NamedTuple

from .relation import PAPER, SETTLED


class Framed(NamedTuple):
    """A case: what it is about, and its bytes."""

    label: str
    data: bytes


def number_bytes(number, width=2):
    return number.to_bytes(width, "little")


def measured(data):
    """The bytes behind their length."""
    return number_bytes(len(data)) + data


def mode_of(byte):
    """0 is the paper's mode, any other number the settled one."""
    return PAPER if byte == 0 else SETTLED


def packed(cases):
    return b"".join(measured(case.data) for case in cases)


DIGEST_BASE, DIGEST_PRIME = 257, 4294967291


def digest(data):
    """A figure for many bytes, printed in their place.  It is 0 for none."""
    figure = 0
    for byte in data:
        figure = (figure * DIGEST_BASE + byte + 1) % DIGEST_PRIME
    return figure
