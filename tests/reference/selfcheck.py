"""Checks this package: `python3 -m tests.reference.selfcheck`.

The expected values are document 01's, or worked out by hand from it, or come
from another way of saying the same thing.
"""

import unittest
from functools import cache

from .actions import SUCCESS, mask_of, partner
from .cases import CASES, END, FOR_EVER, M1_NEW, M1_OLD, M1_PLAN, M1_PRINT, A, B, C, NOTHING, either, internally, send, then
from .chance import Chance
from .choosing_selfcheck import ChoosingSheets, HiddenChoices, NoCircle, Reading
from .compliance import check_client, complies
from .connecting import ZERO_RECORD, Answer, connect
from .edit_selfcheck import PlansByHand
from .game import (
    OPENING,
    Board,
    all_outcomes,
    can_be_served,
    ends_badly,
    most_demanding,
    safe_positions,
)
from .moves import START, Situation, enabled
from .noise_selfcheck import MasksWithNoise
from .plans import Plan, read_plan, step, write_plan
from .program import printed
from .random_contracts import Shape, may_end, mirrored, random_contract, resembling
from .relation import PAPER, kept_after_rounds, passes, reached
from .row_selfcheck import BytesAtFault, Rows, WrongRules
from .runs import At, Attempt, run
from .settled_selfcheck import Settled
from .sheets import CLIENT, SERVICE, Contract, Refusal, offered, read_sheet, state, write_sheet
from .text_selfcheck import Grammar, TextMeaning, TypedTexts, WrongTexts

#: Checked with the rest.
OTHERS = (
    ChoosingSheets,
    HiddenChoices,
    NoCircle,
    Reading,
    MasksWithNoise,
    PlansByHand,
    Settled,
    BytesAtFault,
    Rows,
    WrongRules,
    TypedTexts,
    Grammar,
    TextMeaning,
    WrongTexts,
)

MARKED = Situation((9,) * 14, 9, 9)


def service(n, states):
    return Contract(n, SERVICE, tuple(states))


def client(n, states):
    return Contract(n, CLIENT, tuple(states))


def answer_of(n, old, new, k, records=5000, room=400000):
    first, second = write_sheet(service(n, old)), write_sheet(service(n, new))
    return connect(PAPER, first, second, k, bytes(room), [MARKED] * records).answer


def figures(answer):
    return answer.number, (answer.situations, answer.plan_states, answer.rounds)


def hexed(text):
    return bytes.fromhex(text)


class Cases(unittest.TestCase):
    def test_figures(self):
        for case in CASES:
            with self.subTest(case.name):
                answer = answer_of(case.n, case.old, case.new, case.k)
                self.assertEqual(figures(answer), (case.number, case.counts))

    def test_figures_stay_with_more_names(self):
        for case in CASES:
            for n in range(case.n, 8):
                with self.subTest(case.name, n=n):
                    answer = answer_of(n, case.old, case.new, case.k)
                    self.assertEqual(figures(answer), (case.number, case.counts))

    def test_first_case_whole(self):
        old, new = (write_sheet(contract) for contract in CASES[0].contracts())
        self.assertEqual((old, new), (M1_OLD, M1_NEW))
        after = connect(PAPER, M1_OLD, M1_NEW, 0, b"\xee" * 40, [MARKED] * 3)
        self.assertEqual(after.answer, Answer(0, 0, 0, 0, 2, 2, 0, 21))
        self.assertEqual(after.plan, M1_PLAN + b"\xee" * 19)
        self.assertEqual(after.table, [ZERO_RECORD] * 3)
        self.assertEqual(printed(b"\0" + hexed("1100") + M1_OLD + M1_NEW), M1_PRINT)

    def test_last_case_row_by_row(self):
        old, new = (write_sheet(contract) for contract in CASES[12].contracts())
        rows = hexed("01 12 0100  02 00 0200 10 0300  01 22 0400  01 20 0200  00")
        index = hexed("00000000 04000000 0B000000 0F000000 13000000")
        after = connect(PAPER, old, new, 1, bytes(48), [MARKED] * 5)
        self.assertEqual(after.plan, rows + index + hexed("14000000 0500 03 01"))


class Sheets(unittest.TestCase):
    """Faults of one sheet.  Most have one state, or two: a, then the end.  The
    last byte but one is the role."""

    def refuses(self, text, number, at_state=0, offset=0):
        self.assertEqual(read_sheet(hexed(text)), Refusal(number, at_state, offset))

    def test_lengths(self):
        self.refuses("", 1)
        self.refuses("00 01 00 00 C5", 1)
        self.refuses("00 00 01 00 00 C5", 3)
        widest = state([mask_of(*range(7 * i // 4, 14)) for i in range(8)], [63] * 14)
        longest = write_sheet(service(7, [widest] * 64))
        self.assertEqual(len(longest), 2118)
        self.assertEqual(read_sheet(longest), service(7, [widest] * 64))
        self.assertEqual(read_sheet(b"\0" + longest), Refusal(1))

    def test_trailer(self):
        for count, number in ((64, 0), (65, 2), (255, 2)):
            sheet = write_sheet(service(0, [END] * count))
            self.assertEqual(read_sheet(sheet), Refusal(2) if number else service(0, [END] * 64))
        self.refuses("01 00 00  00 00  03 00 00 00 00 C5", 2)
        self.refuses("01 00 00  00 00  03 00 01 08 00 C5", 2)
        self.refuses("01 00 00  00 00  03 00 01 07 02 C5", 2)
        self.refuses("01 00 00  00 00  03 00 01 07 01 C6", 2)
        self.assertEqual(read_sheet(hexed("01 00 00  00 00  03 00 01 07 01 C5")), client(7, [END]))

    def test_index(self):
        self.refuses("01 00 00  00 00  04 00 01 00 00 C5", 3)
        self.refuses("FE FF 01 00 00 C5", 3)

    def test_rows(self):
        self.refuses("01 01 00 01  01 00 00  01 00 04 00  07 00 02 02 00 C5", 4, 0, 7)
        self.refuses("01 01 00 01  01 00 00  00 00 04 01  07 00 02 02 00 C5", 4, 1, 9)
        self.refuses("01 01 00 01  00 00 04 00  04 00 02 02 00 C5", 4, 1, 4)
        self.refuses("01 01 00 01  01 00  00 00 04 00  06 00 02 02 00 C5", 4, 1, 6)
        self.refuses("01 01 00 01  01 01 00  00 00 04 00  07 00 02 02 00 C5", 4, 1, 7)
        self.refuses("01 01 00 01  01 00 00 00  00 00 04 00  08 00 02 02 00 C5", 4, 1, 7)

    def test_ready_sets(self):
        self.refuses("00 00 00  00 00  03 00 01 00 00 C5", 5, 0, 0)
        self.refuses("09 00 00  00 00  03 00 01 00 00 C5", 5, 0, 0)
        self.refuses("02 01 00 01 00 00  00 00  06 00 01 01 00 C5", 5, 0, 3)
        self.refuses("02 01 00 00 00 00  00 00  06 00 01 01 00 C5", 5, 0, 3)

    def test_bits(self):
        self.refuses("01 02 00 00  00 00  04 00 01 01 00 C5", 6, 0, 1)
        self.refuses("01 00 80  00 00  03 00 01 07 01 C5", 6, 0, 1)
        self.refuses("01 00 40  00 00  03 00 01 07 00 C5", 6, 0, 1)
        success = state([SUCCESS], [])
        self.assertEqual(read_sheet(hexed("01 00 40  00 00  03 00 01 07 01 C5")), client(7, [success]))

    def test_order_within_a_state(self):
        # A mask that falls and has a bit too many; bits before a later order,
        # and before an earlier one.
        self.refuses("02 81 00 02 00 00 00  00 00  07 00 01 01 00 C5", 6, 0, 3)
        self.refuses("02 03 00 01 00 00 00  00 00  07 00 01 01 00 C5", 6, 0, 1)
        self.refuses("03 01 00 00 00 00 80  00 00  07 00 01 01 00 C5", 6, 0, 5)
        # Masks missing before masks wrong; successors missing before wrong.
        self.refuses("03 01 00 00 00  00 00  05 00 01 01 00 C5", 4, 0, 5)
        self.refuses("01 03 00 09  00 00  04 00 01 02 00 C5", 4, 0, 4)
        self.refuses("01 03 00 00 01  00 00  05 00 01 02 00 C5", 7, 0, 4)
        # A wrong successor of the last state before the gap behind it.
        self.refuses("01 01 00 01 FF  00 00  05 00 01 01 00 C5", 7, 0, 3)

    def test_written_sheets_are_read_back(self):
        chance = Chance(1)
        for role in (SERVICE, CLIENT):
            for _ in range(200):
                shape = Shape(chance.below(8), 64, 8, 14)
                contract = random_contract(chance, shape, role)
                self.assertEqual(read_sheet(write_sheet(contract)), contract)


class Connecting(unittest.TestCase):
    def test_order_of_refusals(self):
        broken, shown = b"", hexed("01 01 00 01  01 00 00  01 00 04 00  07 00 02 02 00 C5")
        role_1 = write_sheet(client(2, NOTHING))
        role_1_n_3 = write_sheet(client(3, NOTHING))
        n_3 = write_sheet(service(3, NOTHING))
        for first, second, k, records, expected in [
            (broken, broken, 9, 0, Answer(1, 1)),
            (M1_OLD, broken, 9, 0, Answer(1, 2)),
            (shown, broken, 9, 0, Answer(4, 1, 0, 7)),
            (role_1, shown, 9, 0, Answer(4, 2, 0, 7)),
            (role_1, role_1_n_3, 9, 0, Answer(8, 1)),
            (M1_OLD, role_1_n_3, 9, 0, Answer(8, 2)),
            (M1_OLD, n_3, 9, 0, Answer(9)),
            (M1_OLD, M1_NEW, 4, 0, Answer(10)),
            (M1_OLD, M1_NEW, 3, 0, Answer(11)),
        ]:
            after = connect(PAPER, first, second, k, b"\xee" * 99, [MARKED] * records)
            self.assertEqual(after.answer, expected)
            self.assertEqual(after.plan, b"\xee" * 99)

    def test_what_is_lent(self):
        for k, records, room, number in ((4, 3, 99, 10), (0, 1, 99, 11), (0, 2, 20, 13), (0, 2, 21, 0)):
            after = connect(PAPER, M1_OLD, M1_NEW, k, b"\xee" * room, [MARKED] * records)
            self.assertEqual(after.answer.number, number)
            self.assertEqual(after.table, [MARKED if number == 10 else ZERO_RECORD] * records)
            self.assertEqual(after.plan, M1_PLAN if number == 0 else b"\xee" * room)
        self.assertEqual(
            connect(PAPER, M1_OLD, M1_NEW, 0, bytes(20), [MARKED] * 2).answer, Answer(13, 0, 0, 0, 2, 2, 0, 0)
        )

    def test_buffers_are_counted(self):
        """A k-buffer over n names has (k+1) to the power 2n configurations."""
        for n, k in ((0, 3), (1, 0), (1, 3), (2, 2), (3, 3), (6, 1)):
            loop = [state([mask_of(*range(n), *range(7, 7 + n))], [0] * 2 * n)]
            size = (k + 1) ** (2 * n)
            with self.subTest(n=n, k=k):
                self.assertEqual(figures(answer_of(n, loop, loop, k, size)), (0, (size, size, 0)))
                self.assertEqual(figures(answer_of(n, loop, loop, k, size - 1)), (11, (0, 0, 0)))
        loop = [state([mask_of(*range(14))], [0] * 14)]
        self.assertEqual(figures(answer_of(7, loop, loop, 1, 20000)), (11, (0, 0, 0)))

    def test_as_many_rounds_as_situations(self):
        for length in (1, 2, 5, 63):
            answer = answer_of(1, then(*[A] * length), then(*[A] * (length - 1)), 0)
            self.assertEqual(figures(answer), (12, (length, 0, length)))

    def test_a_round_removes_all_that_fail(self):
        wants = [state([mask_of(send(A))], [3]), state([mask_of(send(B))], [3])]
        old = [state([mask_of(A, B)], [1, 2]), *wants, END]
        self.assertEqual(figures(answer_of(2, old, either(A, B), 0)), (12, (3, 0, 2)))

    def test_hope_counts_in_its_own_ready_set(self):
        new = [state([0, mask_of(send(A))], [1]), END]
        self.assertEqual(figures(answer_of(1, then(send(A)), new, 1)), (12, (3, 0, 1)))

    def test_nothing_is_delivered_back(self):
        self.assertEqual(figures(answer_of(1, NOTHING, then(send(A), A), 1)), (0, (2, 2, 0)))

    def test_plan_keeps_no_removed_situation(self):
        # By a, the old contract comes to want what the new one never gives.
        old = [state([mask_of(A), mask_of(B)], [1, 2]), state([mask_of(send(A))], [2]), END]
        new = either(A, B)
        answer = answer_of(2, old, new, 0)
        self.assertEqual(figures(answer), (0, (3, 2, 1)))
        after = connect(PAPER, write_sheet(service(2, old)), write_sheet(service(2, new)), 0, bytes(99), [MARKED] * 9)
        self.assertEqual(read_plan(after.plan[:21]), Plan(2, 0, [[(1, 1)], []]))

    def test_kept_is_the_union_of_all_relations(self):
        """A relation is a set of situations that all pass with the moves that
        stay within the set; tried for every set."""
        chance, tried = Chance(2), 0
        while tried < 60:
            old = random_contract(chance, Shape(chance.between(1, 2), 3, 2, 2), SERVICE)
            new = random_contract(chance, Shape(old.n, 3, 2, 2), SERVICE)
            situations = reached(old, new, chance.below(2), 9)
            if situations is None or len(situations) < 3:
                continue
            tried += 1
            numbered = list(situations)
            union = set()
            for choice in range(1 << len(numbered)):
                chosen = {situation for i, situation in enumerate(numbered) if choice >> i & 1}
                if all(
                    passes(
                        PAPER,
                        situation.buffer,
                        old.states[situation.old].ready,
                        new.states[situation.new].ready,
                        {code for code, after in situations[situation].items() if after in chosen},
                    )
                    for situation in chosen
                ):
                    union |= chosen
            self.assertEqual(kept_after_rounds(PAPER, old, new, situations)[0], union)


class Moves(unittest.TestCase):
    def test_enabled_moves_by_hand(self):
        old = service(2, [state([mask_of(A, B, send(A), send(B))], [0, 1, 0, 1]), END])
        new = service(2, [state([mask_of(A, send(A), send(B))], [0, 0, 1]), END])
        waiting = (2, 0, 0, 0, 0, 0, 0, 0, 1, 0, 0, 0, 0, 0)
        expected = {
            0: Situation(waiting, 0, 0),
            7: Situation(waiting, 0, 0),
            8: Situation(waiting, 1, 1),
            17: Situation((2, 1) + waiting[2:], 1, 0),
            24: Situation(waiting[:8] + (0,) * 6, 1, 0),
            32: Situation((1,) + waiting[1:], 0, 0),
            39: Situation(waiting[:7] + (1, 1) + waiting[9:], 0, 0),
            40: Situation(waiting[:8] + (2,) + waiting[9:], 0, 1),
        }
        self.assertEqual(enabled(old, new, 2, Situation(waiting, 0, 0)), expected)
        self.assertEqual(enabled(service(2, [END]), service(2, [END]), 3, START), {})


class Stepping(unittest.TestCase):
    def test_rows(self):
        plan = write_plan(Plan(3, 1, [[(18, 1)], [(0, 2), (16, 3)], [(34, 4)], [(32, 2)], []]))
        self.assertEqual(len(plan), 48)
        for at, code, expected in [
            (0, 18, (0, 1)),
            (0, 0, (16, 0)),
            (1, 0, (0, 2)),
            (1, 16, (0, 3)),
            (2, 34, (0, 4)),
            (3, 32, (0, 2)),
            (4, 32, (16, 0)),
            (4, 255, (16, 0)),
            (5, 18, (15, 0)),
            (65535, 255, (15, 0)),
        ]:
            self.assertEqual(step(plan, at, code), expected)
        for length in range(48):
            self.assertEqual(step(plan[:length], 9, 99), (14, 0))

    def test_layout(self):
        for text in [
            "00  00000000  01000000 0100 08 00",
            "00  00000000  01000000 0100 00 04",
            "00  00000000  01000000 0000 00 00",
            "00  01000000  01000000 0100 00 00",
            "00 00  00000000  02000000 0100 00 00",
            "00  00000000  02000000 0100 00 00",
            "00  00000000  01000000 0110 00 00",
            "01 00 0000  00000000  04000000 0100 00 03",
            "01 0E 0000  00000000  04000000 0100 07 03",
            "01 1E 0000  00000000  04000000 0100 07 03",
            "01 2E 0000  00000000  04000000 0100 07 03",
            "01 00 0100  00000000  04000000 0100 01 03",
            "02 00 0000 00 0000  00000000  07000000 0100 01 03",
            "02 10 0000 00 0000  00000000  07000000 0100 01 03",
            "FCFFFFFF 0100 00 00",
        ]:
            with self.subTest(text):
                self.assertEqual(step(hexed(text), 0, 0), (14, 0))
        self.assertEqual(step(hexed("02 00 0000 10 0000  00000000  07000000 0100 01 03"), 0, 16), (0, 0))


class ClientCheck(unittest.TestCase):
    def test_verdicts(self):
        done = state([SUCCESS], [])
        puts_a = [state([mask_of(send(A))], [1]), done]
        wants = [state([mask_of(send(A), send(B))], [1, 1]), done]
        picks = [state([mask_of(send(A)), mask_of(send(B))], [1, 1]), done]
        may_leave = [state([mask_of(send(A)) | SUCCESS], [1]), done]
        for name, client_states, service_states, expected in [
            ("its partner", puts_a, then(A), True),
            ("more offered", puts_a, either(A, B), True),
            ("another name", puts_a, then(B), False),
            ("service chooses", puts_a, internally(A, B), False),
            ("client follows", wants, internally(A, B), True),
            ("client chooses", picks, then(A), False),
            ("service follows", picks, either(A, B), True),
            ("ends without the mark", then(send(A)), then(A), False),
            ("may leave", may_leave, NOTHING, True),
            ("done at once", [done], FOR_EVER, True),
            ("same direction", then(A), then(A), False),
        ]:
            with self.subTest(name):
                self.assertEqual(complies(client(2, client_states), service(2, service_states)), expected)
        unreached = [done, state([mask_of(send(C))], [1])]
        self.assertTrue(complies(client(3, unreached), service(3, NOTHING)))

    def test_refusals(self):
        verdict = check_client(M1_OLD, M1_NEW)
        self.assertEqual((verdict.number, verdict.sheet), (8, 1))
        role_1 = write_sheet(client(1, NOTHING))
        self.assertEqual(check_client(role_1, role_1)[:2], (8, 2))
        self.assertEqual(check_client(role_1, M1_NEW)[:2], (9, 0))
        self.assertEqual(check_client(role_1, b"")[:2], (1, 2))


class Runs(unittest.TestCase):
    def test_last_case(self):
        done = state([SUCCESS], [])
        c, a = mask_of(send(C)), mask_of(send(A))
        user = client(3, [state([c], [1]), state([a], [2]), done])
        old, new = CASES[12].contracts()
        plan = read_plan(connect(PAPER, write_sheet(old), write_sheet(new), 1, bytes(48), [MARKED] * 5).plan)
        attempts = [
            Attempt(c, 1, 0),  # not in the row
            Attempt(a, 1, 18),  # no choice
            Attempt(c, 1, 18),
            Attempt(a, 1, 16),
            Attempt(SUCCESS, 1, 32),
            Attempt(0, 4, 34),  # no choice: the mark belongs to the mask
            Attempt(SUCCESS, 4, 34),
        ]
        outcome = run(user, new, plan, attempts)
        self.assertEqual(outcome.moved, [False, False, True, True, True, False, True])
        self.assertEqual(outcome.stepped, [(16, 0), (0, 1), (0, 1), (0, 3), (0, 2), (0, 4), (0, 4)])
        self.assertEqual((outcome.at, outcome.streak), (At(2, 2, 4), 2))
        self.assertEqual(outcome.standstills, [(SUCCESS, 0)])
        self.assertEqual(run(user, new, plan, []).standstills, [])

    def test_two_who_choose(self):
        """Both choose between a and b: they stand still where they differ."""
        picks = [state([mask_of(send(A)), mask_of(send(B))], [1, 1]), END]
        new = service(2, internally(A, B))
        plan = Plan(2, 0, [[(0, 1), (1, 1)], []])
        a, b = mask_of(send(A)), mask_of(send(B))
        for client_ready, service_ready, code, moved in [
            (a, 1, 0, True),
            (b, 2, 1, True),
            (a, 2, 0, False),
            (a, 2, 1, False),
            (b, 1, 0, False),
            (b, 1, 1, False),
            (a, 1, 1, False),
        ]:
            outcome = run(client(2, picks), new, plan, [Attempt(client_ready, service_ready, code)])
            self.assertEqual(outcome.moved, [moved])
            self.assertEqual(outcome.at, At(1, 1, 1) if moved else At())
        self.assertEqual(run(client(2, picks), new, plan, []).standstills, [(a, 2), (b, 1)])

    def test_complying_clients_never_stand_still(self):
        """Demand 3 on random systems, runs of fifty attempts."""
        chance, connected, longest = Chance(3), 0, 0
        while connected < 150:
            shape = Shape(chance.between(1, 3), 4, 2, 3)
            old = random_contract(chance, shape, SERVICE)
            new, k = resembling(chance, shape, old), chance.below(4)
            user = mirrored(old, chance)
            after = connect(PAPER, write_sheet(old), write_sheet(new), k, bytes(99999), [MARKED] * 500)
            if after.answer.number != 0 or not complies(user, old):
                continue
            connected += 1
            plan, attempts = read_plan(after.plan[: after.answer.plan_length]), []
            for _ in range(50):
                outcome = run(user, new, plan, attempts)
                self.assertTrue(all(ready & SUCCESS for ready, _ in outcome.standstills))
                self.assertLessEqual(outcome.streak, 2 * k * old.n)
                longest = max(longest, outcome.streak)
                at = outcome.at
                attempts.append(
                    Attempt(
                        chance.pick(user.states[at.client].ready),
                        chance.pick(new.states[at.service].ready),
                        chance.pick(plan.rows[at.plan] or [(0, 0)])[0],
                    )
                )
        self.assertGreater(longest, 1)


def small_pairs(chance, count):
    """So many pairs with few situations, for one in two alike: their shape, old, new, k, and the
    situations that are kept."""
    found = 0
    while found < count:
        shape = Shape(chance.between(1, 2), 3, 2, 2, 6, 2)
        old = may_end(chance, random_contract(chance, shape, SERVICE))
        alike = resembling(chance, shape, old)
        new = alike if chance.one_in(2) else random_contract(chance, shape, SERVICE)
        new, k = may_end(chance, new), chance.below(3)
        situations = reached(old, new, k, 30)
        if situations is not None:
            found += 1
            yield shape, old, new, k, kept_after_rounds(PAPER, old, new, situations)[0]


def clients_for(chance, shape, old):
    """Clients that comply with the old contract, of those made in several ways."""
    demanding = most_demanding(old)
    made = [
        mirrored(old, chance),
        mirrored(resembling(chance, shape, old), chance),
        resembling(chance, shape, demanding),
        random_contract(chance, shape, CLIENT),
    ]
    return [user for user in made if complies(user, old)]


class Game(unittest.TestCase):
    """Whether some strategy serves the most demanding client of the old contract is to be what
    the relation says (Padovani 2010, theorem 3.8)."""

    def test_most_demanding_by_hand(self):
        a, b, sends_a, sends_b = (mask_of(action) for action in (A, B, send(A), send(B)))
        for name, ready, expected in [
            ("a+b", [a | b], [sends_a, sends_b]),
            ("a(+)b", [a, b], [sends_a | sends_b]),
            ("the end", [0], [SUCCESS]),
            ("the end or a", [0, a], [sends_a | SUCCESS]),
            ("!a(+)(a+b)", [a | b, sends_a], [a | sends_a, a | sends_b]),
            (
                "(a+b)(+)(a+!b)",
                [a | b, a | sends_b],
                [sends_a, b | sends_a, sends_a | sends_b, b | sends_b],
            ),
        ]:
            with self.subTest(name):
                row = state(ready, [1, 2, 3][: len(offered(ready))])
                made = most_demanding(service(2, [row, END, END, END]))
                self.assertEqual(made.states[0].ready, tuple(sorted(expected)))
                turned = {partner(action): after for action, after in row.successor.items()}
                self.assertEqual(made.states[0].successor, turned)
                self.assertEqual(made.states[1:], (state([SUCCESS], []),) * 3)

    def test_cases(self):
        for case in CASES:
            old, new = case.contracts()
            with self.subTest(case.name):
                self.assertTrue(complies(most_demanding(old), old))
                served = can_be_served(most_demanding(old), new, case.k)
                self.assertEqual(0 if served else 12, case.number)

    def test_most_demanding_is_served_where_the_start_is_kept(self):
        """The states of the most demanding client being those of the old contract, the safe
        positions are also the kept situations, one by one."""
        verdicts = {True: 0, False: 0}
        for _, old, new, k, kept in small_pairs(Chance(4), 2500):
            demanding = most_demanding(old)
            self.assertTrue(complies(demanding, old))
            safe = safe_positions(Board(demanding, new, k))
            self.assertEqual(OPENING in safe, START in kept)
            self.assertEqual(safe, kept)
            verdicts[START in kept] += 1
        self.assertGreater(min(verdicts.values()), 500)

    def test_complying_clients_are_served_if_accepted(self):
        """Counted are the clients that have more to do at the start than to succeed."""
        chance, served, refused = Chance(5), 0, 0
        for shape, old, new, k, kept in small_pairs(chance, 500):
            if START not in kept:
                refused += 1
                self.assertFalse(can_be_served(most_demanding(old), new, k))
                continue
            for user in clients_for(chance, shape, old):
                self.assertTrue(can_be_served(user, new, k))
                served += any(not ready & SUCCESS for ready in user.states[0].ready)
        self.assertGreater(min(served, refused), 100)

    def test_safe_is_where_some_strategy_lasts(self):
        """Every set of codes is tried as the offer after every history, for as many moves as there
        are positions: within so many, each position that will fall has fallen."""
        chance, tried = Chance(6), {True: 0, False: 0}
        for shape, _, new, k, _ in small_pairs(chance, 400):
            board = Board(random_contract(chance, shape, CLIENT), new, k)
            found = all_outcomes(board)
            if len(found) > 12 or max(map(len, found.values())) > 5:
                continue

            @cache
            def offers(position):
                """The offers with which no play ends badly there."""
                codes = list(found[position])
                every = (
                    [code for i, code in enumerate(codes) if choice >> i & 1]
                    for choice in range(1 << len(codes))
                )
                return [offer for offer in every if not ends_badly(board, position, offer)]

            @cache
            def lasts(position, moves):
                """Whether some strategy lets no play end badly within so many moves."""
                if moves == 0:
                    return offers(position) != []
                return any(
                    all(lasts(found[position][code], moves - 1) for code in offer)
                    for offer in offers(position)
                )

            lasting = {position for position in found if lasts(position, len(found))}
            self.assertEqual(safe_positions(board), lasting)
            tried[len(lasting) == len(found)] += 1
        self.assertGreater(min(tried.values()), 50)


class Program(unittest.TestCase):
    def test_short_inputs(self):
        nothing = "counts 0 0 0\n"
        for data in (b"", b"\0", b"\0\0"):
            self.assertEqual(printed(data), "answer 1 1 0\n" + nothing)
        self.assertEqual(printed(b"\0\0\0"), "answer 1 1 0\n" + nothing)
        self.assertEqual(printed(b"\0\x11\0" + M1_OLD), "answer 1 2 0\n" + nothing)
        self.assertEqual(printed(b"\0\xff\xff" + M1_OLD), "answer 1 2 0\n" + nothing)
        self.assertEqual(printed(b"\0\x10\0" + M1_OLD + M1_NEW), "answer 2 1 0\n" + nothing)
        self.assertEqual(printed(b"\x04\x11\0" + M1_OLD + M1_NEW), "answer 10 0 0\n" + nothing)

    def test_what_it_lends(self):
        """Five or six names sent for ever, none to three of them wanted: the
        buffers for the client are all that differs.  The moves are 3,840 that
        put into the buffer, and for each name wanted 1,024 straight and 768
        deliveries: 16,648 bytes for none, 32,776 for three."""

        def begins(k, n, old, new):
            first, second = write_sheet(service(n, old)), write_sheet(service(n, new))
            text = printed(bytes([k]) + len(first).to_bytes(2, "little") + first + second)
            return text.splitlines()[:2]

        def loop(*actions):
            return [state([mask_of(*actions)], [0] * len(actions))]

        self.assertEqual(begins(3, 5, NOTHING, loop(*range(7, 12))), ["answer 0 0 0", "counts 1024 1024 0"])
        self.assertEqual(begins(3, 6, NOTHING, loop(*range(7, 13))), ["answer 11 0 0", "counts 0 0 0"])
        for wanted, number in ((1, 0), (2, 0), (3, 13)):
            lines = begins(3, 5, loop(*range(7, 7 + wanted)), loop(*range(7, 12)))
            self.assertEqual(lines, [f"answer {number} 0 0", "counts 1024 1024 0"])


class Partners(unittest.TestCase):
    def test_each_is_the_others(self):
        self.assertEqual([partner(action) for action in range(14)], [*range(7, 14), *range(7)])


if __name__ == "__main__":
    unittest.main()
