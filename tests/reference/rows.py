"""The row that support looks for (document 02, request 6/13): "a second entry
hands back the row's own bytes from whichever of the two lent sheets is named,
and a third gives the refusal for the same arguments"."""

from typing import NamedTuple

from .connecting import Answer
from .sheets import Refusal, read_sheet, row_start


class Part(NamedTuple):
    """The sheet that the bytes are a part of, where they begin, and how many
    there are; for a refusal "an empty part of the first sheet"."""

    sheet: int = 1
    begins: int = 0
    length: int = 0


class Shown(NamedTuple):
    """The refusal and the part, for the same arguments."""

    answer: Answer
    part: Part


def refused(*answer):
    return Shown(Answer(*answer), Part())


def row_length(row):
    """The count, two bytes for each ready set, a successor for each action
    that the state offers."""
    return 1 + 2 * len(row.ready) + len(row.successor)


def show_row(first, second, sheet, state):
    """The row of a state of the sheet that is named, 1 or 2.  "The other
    sheet is not tested", nor is any role."""
    if sheet not in (1, 2):
        return refused(8)
    named = (first, second)[sheet - 1]
    read = read_sheet(named)
    if isinstance(read, Refusal):
        return refused(read.number, sheet, read.state, read.offset)
    if state >= len(read.states):
        return refused(15)
    return Shown(Answer(0), Part(sheet, row_start(named, state), row_length(read.states[state])))


def part_bytes(first, second, part):
    """The bytes that a part of one of two sheets has."""
    return (first, second)[part.sheet - 1][part.begins : part.begins + part.length]
