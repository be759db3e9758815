"""The checks of masks with noise: which mask decides, said once more in plain
words, and which answers request 2/13 of document 02 has changed."""

import unittest
from collections import Counter
from unittest import mock

from . import sheets
from .chance import Chance
from .sheet_cases import cases
from .sheet_edges import END_ROW, loose_sheet, placed, row
from .sheet_random import untidy_sheet
from .sheets import CLIENT, SERVICE, Refusal, Refused, number_at, read_sheet, row_start


def is_noise(mask, n, role):
    """Whether a mask has "a bit for no name, bit 15, or bit 14 in role 0"."""
    allowed = [action for action in range(14) if action % 7 < n] + [14] * role
    return any(mask >> bit & 1 for bit in range(16) if bit not in allowed)


def decided_by(masks, n, role):
    """The number and the place of the mask that decides, from the places of
    all masks with noise and of all that are not above the one before; None
    if there are none."""
    noise = [place for place, mask in enumerate(masks) if is_noise(mask, n, role)]
    fallen = [place for place in range(1, len(masks)) if not masks[place] > masks[place - 1]]
    if noise:
        return 6, min(noise)
    return (5, min(fallen)) if fallen else None


def mask_by_mask(masks, n, role):
    """The same before request 2/13: "mask by mask, ascending (5) before bits
    (6)"."""
    for place, mask in enumerate(masks):
        if place > 0 and mask <= masks[place - 1]:
            return 5, place
        if is_noise(mask, n, role):
            return 6, place
    return None


def read_mask_by_mask(sheet, trailer, number, at):
    """What stands for `read_masks` before request 2/13."""
    masks = [number_at(sheet, at + 2 * place) for place in range(sheet[at - 1])]
    fault = mask_by_mask(masks, trailer.n, trailer.role)
    if fault:
        raise Refused(fault[0], number, at + 2 * fault[1])
    return tuple(masks)


def read_before(sheet):
    """What reading gave before request 2/13."""
    with mock.patch.object(sheets, "read_masks", read_mask_by_mask):
        return read_sheet(sheet)


def is_of_a_mask(sheet, read):
    """Whether reading ended at a mask out of order: with a 5 that is not for
    the count, with which a row begins."""
    return isinstance(read, Refusal) and read.number == 5 and read.offset != row_start(sheet, read.state)


def has_noise_from(sheet, refusal):
    """Whether the mask that was refused has noise, or a later one of its row."""
    n, role, start = sheet[-3], sheet[-2], row_start(sheet, refusal.state)
    masks = range(refusal.offset, start + 1 + 2 * sheet[start], 2)
    return any(is_noise(number_at(sheet, place), n, role) for place in masks)


def random_masks(chance, n, role):
    """One to eight masks of few different bits; some rows are in order, and
    some have no noise, or had none before one bit was changed."""
    bits = [0, n, 7, n + 7, 14, 15][: chance.between(2, 6)]
    masks = [sum({1 << chance.pick(bits) for _ in range(chance.below(3))}) for _ in range(chance.between(1, 8))]
    if chance.one_in(2):
        masks = [mask for mask in masks if not is_noise(mask, n, role)] or [0]
    if chance.one_in(2):
        masks = sorted(set(masks)) if chance.one_in(2) else sorted(masks)
    if chance.one_in(2):
        masks[chance.below(len(masks))] ^= 1 << chance.below(16)
    return masks


class MasksWithNoise(unittest.TestCase):
    def test_by_hand(self):
        for masks, n, role, number, place in [
            ([1, 0x8000], 1, SERVICE, 6, 1),
            ([0x8000, 1], 1, SERVICE, 6, 0),
            ([0x80, 0x02], 1, SERVICE, 6, 1),
            ([0x80, 0x01], 1, SERVICE, 5, 1),
            ([1, 0, 0x8000], 1, SERVICE, 6, 2),
            ([1, 1, 0x80, 0x82], 1, SERVICE, 6, 3),
            ([1, 1, 0x82, 0x80, 0x8000], 1, SERVICE, 6, 2),
            ([0x80, 0, 1, 2, 3, 4, 5, 0x4000], 3, SERVICE, 6, 7),
            ([0x80, 0, 1, 2, 3, 4, 5, 0x4000], 3, CLIENT, 5, 1),
            ([0x4000, 1], 1, CLIENT, 5, 1),
            ([0x4000, 0x100], 1, CLIENT, 6, 1),
            ([0x4000, 1, 0xC000], 1, CLIENT, 6, 2),
            ([0, 0], 0, SERVICE, 5, 1),
            ([0, 0, 1], 0, SERVICE, 6, 2),
        ]:
            with self.subTest(masks=masks, role=role):
                sheet = loose_sheet([END_ROW, row(masks), row([0x8000])], n, role)
                self.assertEqual(read_sheet(sheet), Refusal(number, 1, 3 + 1 + 2 * place))

    def test_the_mask_that_decides(self):
        """Random rows in any state are read as `decided_by` says.  That is as
        before request 2/13, but where its sentence has a 5 become a 6."""
        chance, met = Chance(12), Counter()
        for _ in range(10000):
            n, role, states = chance.below(8), chance.below(2), chance.between(1, 3)
            masks, at = random_masks(chance, n, role), chance.below(states)
            read = read_sheet(loose_sheet(placed(states, at, row(masks)), n, role))
            before, now = mask_by_mask(masks, n, role), decided_by(masks, n, role)
            if now:
                self.assertEqual(read, Refusal(now[0], at, 3 * at + 1 + 2 * now[1]))
            else:
                self.assertEqual(read.states[at].ready, tuple(masks))
            if before and before[0] == 5 and any(is_noise(mask, n, role) for mask in masks[before[1] :]):
                self.assertEqual(now[0], 6)
            else:
                self.assertEqual(now, before)
            met[before and before[0], now and now[0]] += 1
        self.assertEqual(set(met), {(None, None), (5, 5), (6, 6), (5, 6)})
        self.assertGreater(min(met.values()), 500)

    def test_answers_that_change(self):
        """ "A row whose first faulty mask is out of order and which has a
        forbidden bit in that mask or a later one goes from 5 to 6": such
        sheets give 6 with the same state, and all others are read as before.
        Tried on every stored sheet, and on as many untidy ones."""
        chance, changed, kept = Chance(13), 0, 0
        stored = [case.data for case in cases()]
        for sheet in (*stored, *(untidy_sheet(chance) for _ in stored)):
            before, now = read_before(sheet), read_sheet(sheet)
            if is_of_a_mask(sheet, before) and has_noise_from(sheet, before):
                self.assertEqual((now.number, now.state), (6, before.state))
                self.assertGreaterEqual(now.offset, before.offset)
                changed += 1
            else:
                self.assertEqual(now, before)
                kept += is_of_a_mask(sheet, before)
        self.assertGreater(min(changed, kept), 500)
