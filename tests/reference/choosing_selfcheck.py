"""The checks of choosing sheets: their bytes by hand, the order of refusals,
and their meaning, straight from the transitions of document 000."""

import unittest
from itertools import product

from .actions import actions_of, mask_of
from .chance import Chance
from .choosing import (
    Afterwards,
    Answer,
    Choosing,
    Refused,
    convert,
    has_circle,
    hiding,
    open_row,
    read_choosing,
    write_choosing,
)
from .choosing_dense import dense
from .choosing_limits import crowded, crowded_last, last_letters, rings, started
from .choosing_random import Shape, random_choosing, small_shape
from .sheets import LONGEST, Contract, read_sheet, state

A, B, C = 0, 1, 2
END = open_row()


def hexed(text):
    return bytes.fromhex(text)


#: a(+)b over two names, and the sheet that it means: M7's new one.
CHOICE = hexed("00 02 01 02  01 01 00 01 03  01 02 00 01 03  01 00 00  00 00 04 00 09 00 0E 00  11 00 04 02 00 C6")
CHOSEN = hexed("02 01 00 02 00 01 01  01 00 00  00 00 07 00  0A 00 02 02 00 C5")


def number_of(rows, n=3, room=LONGEST):
    return convert(write_choosing(Choosing(n, tuple(rows))), bytes(room)).answer.number


def states_of(rows, n=3):
    after = convert(write_choosing(Choosing(n, tuple(rows))), bytes(LONGEST))
    return read_sheet(after.output[: after.answer.length])


class ChoosingSheets(unittest.TestCase):
    def test_by_hand(self):
        rows = (hiding(1, 2), open_row({A: [3]}), open_row({B: [3]}), END)
        self.assertEqual(write_choosing(Choosing(2, rows)), CHOICE)
        self.assertEqual(read_choosing(CHOICE), Choosing(2, rows))
        for room in (20, 21, 99):
            lent = bytes(range(100, 100 + room))
            self.assertEqual(convert(CHOICE, lent), Afterwards(Answer(0, 0, 0, 20), CHOSEN + lent[20:]))
        for room in (0, 1, 19):
            lent = bytes(range(100, 100 + room))
            self.assertEqual(convert(CHOICE, lent), Afterwards(Answer(13), lent))

    def test_a_successor_more(self):
        """a.c + a.b: one state behind a, which chooses."""
        rows = [open_row({A: [1, 2]}), open_row({C: [3]}), open_row({B: [3]}), END]
        expected = [state([1], [1]), state([2, 4], [2, 2]), state([0], [])]
        self.assertEqual(states_of(rows), Contract(3, 0, tuple(expected)))

    def test_sets_are_not_closed(self):
        """{1}, {2} and {1, 2} are three states, as row 1 moves on to row 2 by itself."""
        rows = [open_row({A: [1], B: [2], C: [1, 2]}), hiding(2), open_row({A: [0]})]
        again = state([1], [0])
        self.assertEqual(states_of(rows), Contract(3, 0, (state([7], [1, 2, 3]), again, again, again)))

    def test_numbering(self):
        rows = [open_row({A: [3], C: [1], B: [2]}), open_row({A: [1]}), open_row({A: [4]}), open_row({A: [2]}), END]
        expected = [state([7], [1, 2, 3]), state([1], [2]), state([1], [4]), state([1], [3]), state([0], [])]
        self.assertEqual(states_of(rows), Contract(3, 0, tuple(expected)))

    def test_form(self):
        for text in [
            "",
            "00 00 01 00 C6",
            "00 00 01 00 00 C6",
            "01 00 00  00 00  03 00 00 00 00 C6",
            "01 00 00  00 00  03 00 01 08 00 C6",
            "01 00 00  00 00  03 00 01 07 01 C6",
            "01 00 00  00 00  03 00 01 07 00 C5",
            "01 00 00  00 00  04 00 01 07 00 C6",
            "01 00 00  01 00  03 00 01 07 00 C6",
            "01 00 00 00  00 00  04 00 01 07 00 C6",
            "02 00 00  00 00  03 00 01 07 00 C6",
            "00 00  00 00  02 00 01 07 00 C6",
            "01 01 00 00  00 00  04 00 01 07 00 C6",
            "01 01 00 01 01  00 00  05 00 01 07 00 C6",
            "01 01 00 02 00 00  00 00  06 00 01 07 00 C6",
            "01 02 00 01 00  00 00  05 00 01 01 00 C6",
            "01 00 40  00 00  03 00 01 07 00 C6",
            "01 00 80  00 00  03 00 01 07 00 C6",
            "01 01 00  00 00  03 00 01 07 00 C6",
            "01 01 00 02 00  00 00  05 00 01 07 00 C6",
        ]:
            with self.subTest(text):
                self.assertEqual(convert(hexed(text), b"\xee" * 50), Afterwards(Answer(17), b"\xee" * 50))
        end = hexed("01 00 00  00 00  03 00 01 07 00 C6")
        self.assertEqual(convert(end, b"").answer, Answer(13))
        for count, number in ((32, 0), (33, 17)):
            self.assertEqual(number_of([END] * count), number)
        for count, number in ((8, 0), (9, 17)):
            self.assertEqual(number_of([hiding(*range(1, count + 1)), *[END] * count]), number)
            self.assertEqual(number_of([open_row({A: range(count)}), *[END] * count]), number)

    def test_circles(self):
        for rows, number in [
            ([hiding(0)], 18),
            ([END, hiding(1)], 18),
            ([open_row({A: [1]}), hiding(2), hiding(1)], 18),
            ([hiding(1, 2), END, hiding(0)], 18),
            ([hiding((row + 1) % 32) for row in range(32)], 18),
            ([*(hiding(row + 1) for row in range(31)), END], 0),
            ([hiding(1, 2), hiding(3), hiding(3), END], 0),
            ([hiding(1), open_row({A: [0]})], 0),
        ]:
            self.assertEqual(number_of(rows), number)

    def test_limits_and_their_order(self):
        nine = started(last_letters(5), 9)
        for rows, number in [
            (last_letters(6), 0),
            (last_letters(7), 19),
            (rings(32), 0),
            (rings(32, {0: {C: [0]}, 31: {C: [30]}}), 19),
            (crowded(6, 8), 0),
            (crowded(6, 9), 20),
            (crowded_last(4, 4), 0),
            (crowded_last(4, 5), 20),
            (nine, 20),
            (started(last_letters(7), 9), 19),
            ([*last_letters(7), hiding(8)], 18),
            ([*nine, hiding(len(nine))], 18),
        ]:
            self.assertEqual(number_of(rows, 7, 0), number or 13)
            self.assertEqual(number_of(rows, 7), number)

    def test_the_longest_sheet(self):
        longest, late = (write_choosing(dense(late)) for late in (False, True))
        self.assertEqual(convert(longest, bytes(LONGEST)).answer, Answer(0, length=LONGEST))
        self.assertEqual(convert(longest, bytes(LONGEST - 1)).answer, Answer(13))
        self.assertEqual(convert(late, bytes(LONGEST)).answer, Answer(19))

    def test_written_sheets_are_read_back(self):
        chance = Chance(7)
        for _ in range(400):
            choosing = random_choosing(chance, small_shape(chance))
            self.assertEqual(read_choosing(write_choosing(choosing)), choosing)
            self.assertFalse(has_circle(choosing))


class Transitions:
    """The transitions of a choosing sheet's rows, and what document 000 makes
    of them, word for word."""

    def __init__(self, choosing):
        self.count = len(choosing.rows)
        self.internal = {(row, after) for row, one in enumerate(choosing.rows) for after in one.moves}
        self.visible = {
            (row, action, after)
            for row, one in enumerate(choosing.rows)
            for action, rows in one.successors.items()
            for after in rows
        }

    def silently(self, rows):
        """=>, the reflexive, transitive closure of internal moves."""
        while True:
            more = rows | {after for row, after in self.internal if row in rows}
            if more == rows:
                return rows
            rows = more

    def by(self, rows, action):
        """=> -action-> =>"""
        rows = self.silently(rows)
        return self.silently({after for row, made, after in self.visible if made == action and row in rows})

    def by_word(self, rows, word):
        for action in word:
            rows = self.by(rows, action)
        return self.silently(rows)

    def init(self, row):
        return mask_of(*(action for action in range(14) if self.by({row}, action)))

    def ready_sets(self, rows):
        """Definition 2.5 for the internal choice of the rows."""
        stable = self.silently(rows) - {row for row, _ in self.internal}
        return {self.init(row) for row in stable}


def after_word(contract, word):
    """The state that a word leads to in a sheet, None if it cannot be done."""
    at = 0
    for action in word:
        at = contract.states[at].successor.get(action)
        if at is None:
            return None
    return contract.states[at]


class HiddenChoices(unittest.TestCase):
    """Request 1/13: "for every sequence of actions both have the same ready
    sets", tried on all short words; and both can do the same words."""

    def agree(self, choosing, longest):
        """How many words can be done, and how many of them leave a choice."""
        after = convert(write_choosing(choosing), bytes(LONGEST))
        if after.answer.number != 0:
            return 0, 0
        contract = read_sheet(after.output[: after.answer.length])
        self.assertEqual((contract.n, contract.role), (choosing.n, 0))
        transitions, done, chose = Transitions(choosing), 0, 0
        actions = [*range(choosing.n), *range(7, 7 + choosing.n)]
        for length in range(longest + 1):
            for word in product(actions, repeat=length):
                rows, found = transitions.by_word({0}, word), after_word(contract, word)
                self.assertEqual(bool(rows), found is not None)
                if rows:
                    self.assertEqual(transitions.ready_sets(rows), set(found.ready))
                    done, chose = done + 1, chose + (len(found.ready) > 1)
        return done, chose

    def test_small_random_sheets(self):
        chance, done, chose = Chance(8), 0, 0
        for _ in range(800):
            shape = Shape(chance.between(1, 2), 6, chance.between(1, 3), 3, chance.between(2, 4), 6, 2)
            words = self.agree(random_choosing(chance, shape), 4)
            done, chose = done + words[0], chose + words[1]
        self.assertGreater(done, 15000)
        self.assertGreater(chose, 4000)

    def test_large_random_sheets(self):
        chance, done, chose = Chance(9), 0, 0
        for _ in range(60):
            shape = Shape(chance.pick([1, 7]), 20, 3, chance.pick([2, 14]), 3, 12, 8)
            words = self.agree(random_choosing(chance, shape), 2)
            done, chose = done + words[0], chose + words[1]
        self.assertGreater(done, 300)
        self.assertGreater(chose, 100)

    def test_actions_are_those_of_the_transitions(self):
        """What a state offers is what some ready set has."""
        for rows in (last_letters(6), crowded(6, 8), crowded_last(4, 4)):
            for row in states_of(rows, 7).states:
                self.assertEqual(list(row.successor), actions_of(mask_of(*row.successor)))
                self.assertEqual(mask_of(*row.successor), union(row.ready))


def union(masks):
    every = 0
    for mask in masks:
        every |= mask
    return every


class NoCircle(unittest.TestCase):
    def test_a_circle_is_a_row_that_moves_back_to_itself(self):
        """By the transitions: some row is behind one of its own moves."""
        chance, found = Chance(10), {True: 0, False: 0}
        for _ in range(600):
            choosing = random_choosing(chance, small_shape(chance)._replace(hides=2), circles=True)
            moves = Transitions(choosing)
            back = any(row in moves.silently({after}) for row, after in moves.internal)
            self.assertEqual(has_circle(choosing), back)
            found[back] += 1
        self.assertGreater(min(found.values()), 100)


def refusal_of(sheet):
    """The number that reading alone gives, 0 for none."""
    try:
        read_choosing(sheet)
    except Refused as refused:
        return refused.number
    return 0


class Reading(unittest.TestCase):
    def test_what_is_read_is_written_again(self):
        """A choosing sheet has one form: bytes that are read are the bytes of
        what was read.  Tried with every byte of some changed."""
        chance, whole = Chance(11), 0
        for _ in range(12):
            sheet = write_choosing(random_choosing(chance, Shape(2, 4, 3, 2, 2, 4, 2), circles=True))
            for place in range(len(sheet)):
                for byte in range(256):
                    other = sheet[:place] + bytes([byte]) + sheet[place + 1 :]
                    if refusal_of(other) == 0:
                        whole += 1
                        self.assertEqual(write_choosing(read_choosing(other)), other)
        self.assertGreater(whole, 500)
