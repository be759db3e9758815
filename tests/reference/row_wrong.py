"""Wrong versions of request 6/13's rules, each to be put in the place of the
right one: the stored cases must tell them apart."""

from .connecting import Answer
from .rows import Part, Shown, show_row
from .sheet_faults import index_of, is_entry, is_missing, is_of_a_mask
from .sheets import TRAILER, Refusal, number_at, offered, read_sheet, row_start

# The offset of a sheet's refusal


def no_offset(sheet, refusal):
    return 0


def of_the_row(sheet, refusal):
    return row_start(sheet, refusal.state) if refusal.number >= 4 else 0


def low_byte(sheet, refusal):
    return refusal.offset & 255


def of_the_trailer(sheet, refusal):
    """An offset for refusals 2 and 3 too."""
    return len(sheet) - TRAILER if refusal.number in (2, 3) else refusal.offset


def what_the_entry_says(sheet, refusal):
    return row_start(sheet, refusal.state) if is_entry(sheet, refusal) else refusal.offset


def entry_for_missing(sheet, refusal):
    return index_of(sheet) + 2 * refusal.state if is_missing(sheet, refusal) else refusal.offset


def last_there(sheet, refusal):
    """The last byte that is there instead of the first that is not."""
    return max(refusal.offset - 1, 0) if is_missing(sheet, refusal) else refusal.offset


def cut_through(sheet, refusal):
    """Where half a mask is missing, the half that is there."""
    start = row_start(sheet, refusal.state)
    if not is_missing(sheet, refusal) or not start < refusal.offset < start + 1 + 2 * sheet[start]:
        return refusal.offset
    return refusal.offset - (refusal.offset - start - 1) % 2


def last_missing(sheet, refusal):
    """The last byte of the masks that are missing, within the index."""
    start = row_start(sheet, refusal.state)
    if not is_missing(sheet, refusal) or start == refusal.offset:
        return refusal.offset
    return max(start + 2 * sheet[start], refusal.offset)


def end_of_the_gap(sheet, refusal):
    return max(refusal.offset, index_of(sheet)) if refusal.number == 4 else refusal.offset


def second_byte(sheet, refusal):
    """The mask's second byte."""
    return refusal.offset + is_of_a_mask(sheet, refusal)


def mask_before(sheet, refusal):
    """For masks out of order, the one before."""
    return refusal.offset - 2 if refusal.number == 5 and is_of_a_mask(sheet, refusal) else refusal.offset


def always_the_count(sheet, refusal):
    """The count byte for every 5."""
    return row_start(sheet, refusal.state) if refusal.number == 5 else refusal.offset


def first_mask(sheet, refusal):
    return row_start(sheet, refusal.state) + 1 if refusal.number == 6 else refusal.offset


def first_successor(sheet, refusal):
    start = row_start(sheet, refusal.state)
    return start + 1 + 2 * sheet[start] if refusal.number == 7 else refusal.offset


OFFSETS = [
    no_offset,
    of_the_row,
    low_byte,
    of_the_trailer,
    what_the_entry_says,
    entry_for_missing,
    last_there,
    cut_through,
    last_missing,
    end_of_the_gap,
    second_byte,
    mask_before,
    always_the_count,
    first_mask,
    first_successor,
]


def read_with(rule):
    """Reading a sheet, with a wrong offset."""

    def read(sheet):
        found = read_sheet(sheet)
        return found._replace(offset=rule(sheet, found)) if isinstance(found, Refusal) else found

    return read


# Which sheet is tested, and when


def other_tested(first, second, sheet, state):
    """The other sheet is tested behind the one that is named."""
    shown = show_row(first, second, sheet, state)
    other = read_sheet(first if sheet == 2 else second)
    if shown.answer.number in (0, 15) and isinstance(other, Refusal):
        return Shown(Answer(other.number, 3 - sheet, *other[1:]), Part())
    return shown


def broken_before_8(first, second, sheet, state):
    """The sheets are tested before the number."""
    broken = [show_row(first, second, number, 0) for number in (1, 2)]
    broken = [shown for shown in broken if shown.answer.number > 0]
    return broken[0] if broken and sheet not in (1, 2) else show_row(first, second, sheet, state)


def state_first(first, second, sheet, state):
    """15 before 1 to 7, by the count that stands in the trailer."""
    shown = show_row(first, second, sheet, state)
    named = second if sheet == 2 else first
    beyond = len(named) >= TRAILER and state >= named[-4]
    return Shown(Answer(15), Part()) if 1 <= shown.answer.number <= 7 and beyond else shown


def roles_tested(first, second, sheet, state):
    """8 for a client's sheet, as in connecting."""
    shown = show_row(first, second, sheet, state)
    named = second if sheet == 2 else first
    return Shown(Answer(8, sheet), Part()) if shown.answer.number == 0 and named[-2] == 1 else shown


def names_compared(first, second, sheet, state):
    """9 if what stands in the trailers differs."""
    shown = show_row(first, second, sheet, state)
    differ = min(len(first), len(second)) >= TRAILER and first[-3] != second[-3]
    return Shown(Answer(9), Part()) if shown.answer.number == 0 and differ else shown


def seven_bits(first, second, sheet, state):
    """Of the sheet's number."""
    return show_row(first, second, sheet & 127, state)


def six_bits(first, second, sheet, state):
    """Of the state's."""
    return show_row(first, second, sheet, state & 63)


TESTED = [other_tested, broken_before_8, state_first, roles_tested, names_compared, seven_bits, six_bits]

# What is shown: the two sheets, the number that was named, and what is right


def of_the_first(sheets, sheet, answer, part):
    """A part of the first sheet, whichever is named."""
    return Shown(answer, part._replace(sheet=1))


def of_the_named(sheets, sheet, answer, part):
    """For a refusal an empty part of the sheet that is named."""
    return Shown(answer, part._replace(sheet=sheet) if sheet in (1, 2) else part)


def byte_short(sheets, sheet, answer, part):
    return Shown(answer, part._replace(length=max(part.length - 1, 0)))


def low_byte_of_begin(sheets, sheet, answer, part):
    return Shown(answer, part._replace(begins=part.begins & 255))


def with_successors(sheets, part, count):
    """The part, with room for as many successors as counted for the masks."""
    if part.length == 0:
        return part
    named = sheets[part.sheet - 1]
    masks = [number_at(named, part.begins + 1 + 2 * place) for place in range(named[part.begins])]
    return part._replace(length=1 + 2 * len(masks) + count(masks))


def for_the_mark(sheets, sheet, answer, part):
    """A successor for the success mark too."""
    return Shown(answer, with_successors(sheets, part, lambda masks: len(offered(masks)) + (max(masks) >> 14)))


def for_each_set(sheets, sheet, answer, part):
    """A successor for each action of each ready set."""
    return Shown(answer, with_successors(sheets, part, lambda masks: sum(len(offered([mask])) for mask in masks)))


def for_the_last_set(sheets, sheet, answer, part):
    return Shown(answer, with_successors(sheets, part, lambda masks: len(offered(masks[-1:]))))


def sheet_for_8(sheets, sheet, answer, part):
    return Shown(answer._replace(sheet=sheet) if answer.number == 8 else answer, part)


def sheet_for_15(sheets, sheet, answer, part):
    return Shown(answer._replace(sheet=sheet) if answer.number == 15 else answer, part)


def always_the_first(sheets, sheet, answer, part):
    """The refusal is said to be the first sheet's."""
    return Shown(answer._replace(sheet=min(answer.sheet, 1)), part)


CHANGED = [
    of_the_first,
    of_the_named,
    byte_short,
    low_byte_of_begin,
    for_the_mark,
    for_each_set,
    for_the_last_set,
    sheet_for_8,
    sheet_for_15,
    always_the_first,
]


def shown_with(change):
    """Showing a row, with something changed."""
    return lambda first, second, sheet, state: change((first, second), sheet, *show_row(first, second, sheet, state))
