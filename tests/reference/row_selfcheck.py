"""The checks of request 6/13 of document 02: that the byte said to be at fault
is the one to be changed, that every answer carries it, that a row's bytes are
the row, and wrong rules that the stored cases tell apart."""

import unittest
from collections import Counter
from itertools import product

from . import client_cases, connecting, edit_cases, pair_cases, row_cases, rows
from .actions import allowed_mask
from .cases import M1_NEW, M1_OLD, M1_PLAN
from .chance import Chance
from .compliance import check_client
from .connecting import Answer, connect
from .plan_checks import check_plan
from .relation import PAPER, SETTLED
from .row_random import damaged_sheet, small_sheet
from .row_wrong import CHANGED, OFFSETS, TESTED, read_with, shown_with
from .rows import Part, Shown, part_bytes, show_row
from .settled_selfcheck import told_apart
from .sheet_faults import faulty_pairs, index_of, is_entry, is_missing, is_of_a_mask, shown
from .sheet_random import careless_sheet, noise_before_trailer, untidy_sheet
from .sheets import CLIENT, SERVICE, Refusal, number_at, read_sheet, row_bytes

BROKEN_KINDS = damaged_sheet, careless_sheet, untidy_sheet, noise_before_trailer


def broken_sheets(chance, count):
    """So many random sheets that are refused for a byte of their own."""
    while count > 0:
        sheet = chance.pick(BROKEN_KINDS)(chance)
        if isinstance(read_sheet(sheet), Refusal) and read_sheet(sheet).number >= 4:
            count -= 1
            yield sheet


# Mending a sheet at the byte that is said to be at fault


def put(sheet, at, data):
    """The sheet with other bytes from there on, as many."""
    return sheet[:at] + data + sheet[at + len(data) :]


def with_rows(sheet, rows_):
    """The sheet with other rows before its index, wherever this then is."""
    return rows_ + sheet[index_of(sheet) : -6] + len(rows_).to_bytes(2, "little") + sheet[-4:]


def end_of_rows(sheet, count):
    """Where so many rows end that lie one behind the other and are whole."""
    end = 0
    for _ in range(count):
        union = 0
        for place in range(sheet[end]):
            union |= number_at(sheet, end + 1 + 2 * place)
        end += 1 + 2 * sheet[end] + (union & 0x3FFF).bit_count()
    return end


def next_mask(sheet, at):
    """The lowest mask allowed above the one before; None if there is none."""
    wanted = allowed_mask(sheet[-3], sheet[-2])
    above = number_at(sheet, at - 2) + 1
    return next((mask for mask in range(above, 1 << 15) if not mask & ~wanted), None)


def mended(sheet, refusal):
    """The sheet with the byte at fault changed, put in or taken out, or both
    bytes of an entry or a mask changed; None if no mask could stand there."""
    at, rows_ = refusal.offset, sheet[: index_of(sheet)]
    if is_missing(sheet, refusal):
        return with_rows(sheet, rows_ + b"\0")
    if is_entry(sheet, refusal):
        return put(sheet, at, end_of_rows(sheet, refusal.state).to_bytes(2, "little"))
    if refusal.number == 4:
        return with_rows(sheet, rows_[:at] + rows_[at + 1 :])
    if not is_of_a_mask(sheet, refusal):
        return put(sheet, at, bytes([1 if refusal.number == 5 else 0]))
    mask = number_at(sheet, at) & allowed_mask(sheet[-3], sheet[-2]) if refusal.number == 6 else next_mask(sheet, at)
    return None if mask is None else put(sheet, at, mask.to_bytes(2, "little"))


class BytesAtFault(unittest.TestCase):
    def test_mending(self):
        """A sheet that is mended only where its refusals say, one after the
        other, becomes whole; no state is returned to, and no sheet is met
        twice."""
        chance, met = Chance(61), Counter()
        made = [sheet for role in (SERVICE, CLIENT) for _, sheet in shown(role)]
        for sheet in (*made, *broken_sheets(chance, 3000)):
            refusal, seen = read_sheet(sheet), set()
            while isinstance(refusal, Refusal):
                self.assertNotIn(sheet, seen)
                seen.add(sheet)
                met[refusal.number] += 1
                sheet = mended(sheet, refusal)
                if sheet is None:
                    met["no mask"] += 1
                    break
                before, refusal = refusal, read_sheet(sheet)
                if isinstance(refusal, Refusal):
                    self.assertGreaterEqual(refusal.number, 4)
                    self.assertGreaterEqual(refusal.state, before.state)
        self.assertGreater(min(met[number] for number in (4, 5, 6, 7)), 500)
        self.assertLess(met["no mask"], 300)

    def test_bytes_behind_do_not_matter(self):
        """A refusal 5 to 7 stays the same whatever the rows' bytes behind the
        one at fault are; behind a mask out of order, if none of them could be
        a forbidden bit."""
        chance, met = Chance(62), Counter()
        for sheet in broken_sheets(chance, 3000):
            refusal = read_sheet(sheet)
            if refusal.number == 4:
                continue
            is_mask = is_of_a_mask(sheet, refusal)
            behind, index = refusal.offset + 1 + is_mask, index_of(sheet)
            size = index - behind
            data = bytes(size) if refusal.number == 5 and is_mask else chance.data(size)
            self.assertEqual(read_sheet(put(sheet, behind, data)), refusal)
            met[refusal.number, is_mask] += size > 0
        self.assertGreater(min(met[key] for key in ((5, False), (5, True), (6, True), (7, False))), 50)

    def test_every_answer_carries_it(self):
        """Connecting in both modes, the client check and the check of a plan
        give the first refusal of the two sheets; all others have offset 0."""
        chance, met = Chance(63), Counter()

        def any_sheet():
            return chance.pick((small_sheet, damaged_sheet, careless_sheet))(chance)

        pairs = [pair[1:] for roles in product((SERVICE, CLIENT), repeat=2) for pair in faulty_pairs(*roles)]
        for first, second in (*pairs, *((any_sheet(), any_sheet()) for _ in range(2000))):
            answers = [connect(mode, first, second, 4, b"", []).answer for mode in (PAPER, SETTLED)]
            answers += [check_plan(mode, first, second, M1_PLAN[1:], []).answer for mode in (PAPER, SETTLED)]
            answers.append(check_client(first, second))
            refusals = [(place, read_sheet(sheet)) for place, sheet in ((1, first), (2, second))]
            refusals = [(place, read) for place, read in refusals if isinstance(read, Refusal)]
            for answer in answers:
                if refusals:
                    (place, refusal), *_ = refusals
                    self.assertEqual(answer[:4], (refusal.number, place, refusal.state, refusal.offset))
                else:
                    self.assertNotIn(answer.number, range(1, 8))
                    self.assertEqual((answer.state, answer.offset), (0, 0))
            met[len(refusals)] += 1
        self.assertGreater(min(met.values()), 200)


class Rows(unittest.TestCase):
    def test_by_hand(self):
        entry, rubbish = M1_OLD[:9] + b"\5" + M1_OLD[10:], b"\0"
        for first, second, sheet, state, answer, part, data in [
            (M1_OLD, M1_NEW, 1, 0, (0,), (1, 0, 4), "01 01 00 01"),
            (M1_OLD, M1_NEW, 1, 1, (0,), (1, 4, 3), "01 00 00"),
            (M1_OLD, M1_NEW, 2, 0, (0,), (2, 0, 5), "01 03 00 01 01"),
            (M1_OLD, M1_NEW, 2, 1, (0,), (2, 5, 3), "01 00 00"),
            (M1_OLD, rubbish, 1, 1, (0,), (1, 4, 3), "01 00 00"),
            (rubbish, M1_NEW, 2, 1, (0,), (2, 5, 3), "01 00 00"),
            (M1_OLD, M1_NEW, 1, 2, (15,), (), ""),
            (M1_OLD, M1_NEW, 2, 255, (15,), (), ""),
            (M1_OLD, M1_NEW, 0, 0, (8,), (), ""),
            (rubbish, rubbish, 3, 9, (8,), (), ""),
            (M1_OLD, rubbish, 2, 9, (1, 2), (), ""),
            (entry, rubbish, 1, 0, (4, 1, 1, 9), (), ""),
            (rubbish, entry, 2, 2, (4, 2, 1, 9), (), ""),
        ]:
            found = show_row(first, second, sheet, state)
            self.assertEqual(found, Shown(Answer(*answer), Part(*part)))
            self.assertEqual(part_bytes(first, second, found.part), bytes.fromhex(data))

    def test_parts_make_up_the_rows(self):
        """The parts of all states lie one behind the other from 0 to the
        index, and each is the row that writes the state; the state behind the
        last is none."""
        chance = Chance(64)
        for i in range(600):
            sheets, named = [small_sheet(chance), small_sheet(chance)], 1 + i % 2
            sheet = sheets[named - 1]
            contract, end = read_sheet(sheet), 0
            for state, row in enumerate(contract.states):
                answer, part = show_row(*sheets, named, state)
                self.assertEqual((answer, part.sheet, part.begins), (Answer(0), named, end))
                self.assertEqual(part_bytes(*sheets, part), row_bytes(row))
                end += part.length
            self.assertEqual(end, index_of(sheet))
            for state in (len(contract.states), 255):
                self.assertEqual(show_row(*sheets, named, state), Shown(Answer(15), Part()))

    def test_only_the_named_sheet_counts(self):
        """Whatever the other is; and in the other place the same is shown,
        with the other number."""
        chance, met = Chance(65), Counter()
        for _ in range(1500):
            one, two, three = (chance.pick((small_sheet, *BROKEN_KINDS))(chance) for _ in range(3))
            for state in (0, 1, 5, 255):
                found = show_row(one, two, 1, state)
                self.assertEqual(show_row(one, three, 1, state), found)
                answer, part = found
                if answer.number == 0:
                    part = part._replace(sheet=2)
                elif answer.number != 15:
                    answer = answer._replace(sheet=2)
                self.assertEqual(show_row(three, one, 2, state), Shown(answer, part))
                met[answer.number] += 1
        self.assertGreater(min(met[number] for number in (0, 4, 5, 6, 7, 15)), 50)


class WrongRules(unittest.TestCase):
    def all_told_apart(self, cases, expected, rules):
        for rule, apart in told_apart([case.data for case in cases], expected, rules):
            with self.subTest(rule):
                self.assertEqual(apart, 3)

    def test_offsets(self):
        rules = [(rule, connecting, "read_sheet", read_with(rule)) for rule in OFFSETS]
        clients = [client_cases.framed(*case) for case in faulty_pairs(CLIENT, SERVICE)]
        self.all_told_apart(pair_cases.faulty(), pair_cases.expected, rules)
        self.all_told_apart(clients, client_cases.expected, rules)
        self.all_told_apart(edit_cases.faulty_sheets(), edit_cases.expected, rules)

    def test_rows(self):
        rules = [(rule, rows, "read_sheet", read_with(rule)) for rule in OFFSETS]
        rules += [(rule, row_cases, "show_row", rule) for rule in TESTED]
        rules += [(rule, row_cases, "show_row", shown_with(rule)) for rule in CHANGED]
        self.all_told_apart(row_cases.cases(), row_cases.expected, rules)


if __name__ == "__main__":
    unittest.main()
