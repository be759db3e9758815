"""The checks of contracts typed as text: by hand and by document 01's cases;
the grammar by tables of all derivations; the meaning by the transitions of
document 000 done literally; and wrong rules that the stored cases tell apart."""

import unittest
from collections import Counter
from functools import cache
from itertools import islice, product, zip_longest
from unittest import mock

from . import text_cases, texts
from .cases import CASES
from .chance import Chance
from .choosing import Afterwards, Answer
from .sheets import LONGEST, Contract, read_sheet, state, write_sheet
from .text_cases import TERMS
from .text_edges import SAMPLES
from .text_limits import all_rows_long, halves, numberings, places, prefixes, ranks, rings, variables
from .text_random import KNOWN, Shape, random_term, whole, with_blanks, written
from .text_tables import Tables, derived, fault_by_tables
from .text_terms import byte_at_fault, depth_of, tree_of
from .text_transitions import count_from, directly_behind, ended, literally, marked, plain, ready_sets, silently
from .text_wrong import WRONG, both_to_the_right, regrouped
from .texts import fault_of, masks_of, read_text, unions


def answer_of(text, room=LONGEST):
    return read_text(text.encode(), bytes(room)).answer


def contract_of(text):
    """The contract that a text means, None on a refusal."""
    after = read_text(text if isinstance(text, bytes) else text.encode(), bytes(LONGEST))
    return read_sheet(after.output[: after.answer.length]) if after.answer.number == 0 else None


class TypedTexts(unittest.TestCase):
    def test_cases(self):
        """Document 01's terms give document 01's sheets but for n, which is 7."""
        for case in CASES:
            for contract, term in zip(case.contracts(), TERMS[case.name], strict=True):
                sheet = write_sheet(contract)
                right = sheet[:-3] + b"\7" + sheet[-2:]
                lent = bytes(range(100, 100 + len(right) + 5))
                for blanks in (term, " ".join(term), f" {term} "):
                    after = read_text(blanks.encode(), lent)
                    self.assertEqual(after, Afterwards(Answer(0, length=len(right)), right + lent[-5:]))
                self.assertEqual(read_text(term.encode(), lent[:-6]), Afterwards(Answer(13), lent[:-6]))

    def test_by_hand(self):
        end = state([0], [])
        for text, states in [
            ("a.b+c.b", [state([5], [1, 2]), state([2], [3]), state([2], [3]), end]),
            ("a.0+b+c.(0)", [state([7], [1, 1, 1]), end]),
            ("a.(0+0)+b", [state([3], [1, 2]), end, end]),
            ("a.b+a.c", [state([1], [1]), state([2, 4], [2, 2]), end]),
            ("a(+)b+c", [state([1, 6], [1, 1, 1]), end]),
            ("(a(+)b)+c", [state([5, 6], [1, 1, 1]), end]),
            ("rec X.a.X+b", [state([3], [1, 2]), state([1], [1]), end]),
            ("rec X.(a.X+b)", [state([3], [0, 1]), end]),
            ("rec X.a.rec X.b.X", [state([1], [1]), state([2], [1])]),
            ("rec X.a.rec Y.(X+b.Y)", [state([1], [1]), state([3], [1, 1])]),
            ("!b.a+!a.b", [state([1 << 7 | 1 << 8], [1, 2]), state([2], [3]), state([1], [3]), end]),
        ]:
            with self.subTest(text):
                self.assertEqual(contract_of(text), Contract(7, 0, tuple(states)))

    def test_refusals_and_their_order(self):
        many, nine = rings(8, 9), "(+)".join("abcdefg") + "(+)!a(+)!b"
        for text, number, fault in [
            ("a" + " " * 255, 0, 0),
            ("a" + " " * 256, 1, 0),
            ("(" * 257, 1, 0),
            ("", 22, 0),
            ("   ", 22, 3),
            ("a b", 22, 2),
            ("a.", 22, 2),
            ("a\t.b", 22, 1),
            ("re X.a", 22, 3),
            ("(a+b", 22, 4),
            ("a+b)", 22, 3),
            ("a(b)", 22, 2),
            ("X+)", 22, 2),
            ("X", 23, 0),
            ("a+ rec X.X", 23, 9),
            ("rec X.a.rec X.X", 23, 14),
            ("rec X.a.X+X", 23, 10),
            (many + "+X", 23, len(many) + 1),
            (nine + "(+)X", 23, len(nine) + 3),
            (f"{nine}(+){many}", 19, 0),
            (nine, 20, 0),
            ("(" * 16 + "0" + ")" * 16, 0, 0),
            ("(" * 16 + "a" + ")" * 16, 22, 16),
            ("(" * 17 + "0" + ")" * 17, 22, 16),
            (prefixes(15, "a"), 0, 0),
            (prefixes(16, "0"), 0, 0),
            (prefixes(16, "a"), 22, 32),
            (halves(texts_of_all()) + "+" + "+".join(texts_of_all()), 0, 0),
            (halves(texts_of_all()), 20, 0),
        ]:
            with self.subTest(text):
                for room in (0, 1, 9) if number else (LONGEST,):
                    lent = bytes(range(50, 50 + room)) if number else bytes(room)
                    after = read_text(text.encode(), lent)
                    self.assertEqual((after.answer.number, after.answer.sheet), (number, int(number == 1)))
                    if number:
                        self.assertEqual((after.answer.length, after.output), (0, lent))
                self.assertEqual(fault_of(text.encode()), fault)

    def test_the_longest_sheet(self):
        self.assertEqual(answer_of(all_rows_long()), Answer(0, length=LONGEST))
        self.assertEqual(answer_of(all_rows_long(), LONGEST - 1), Answer(13))
        self.assertEqual(answer_of(all_rows_long(4)), Answer(19))
        self.assertEqual(answer_of(all_rows_long(3, 1)), Answer(20))

    def test_blanks_do_not_matter(self):
        """Nor for what is at fault, but for the blanks before it."""
        chance = Chance(71)
        for _ in range(600):
            text = whole(chance) if chance.one_in(2) else bytes(chance.pick(KNOWN) for _ in range(chance.below(15)))
            spaced, bare = with_blanks(chance, text), text.replace(b" ", b"")
            lent = bytes(LONGEST)
            self.assertEqual(read_text(spaced, lent), read_text(bare, lent))
            if read_text(bare, lent).answer.number in (22, 23):
                at = fault_of(spaced)
                self.assertEqual(at - spaced[:at].count(b" "), fault_of(bare))
                self.assertNotEqual(spaced[at : at + 1], b" ")

    def test_unions(self):
        chance = Chance(72)
        for _ in range(300):
            sides = [{chance.number() & chance.number() & 0x3FFF for _ in range(chance.between(1, 9))} for _ in range(2)]
            family = unions(*(sum(1 << mask for mask in side) for side in sides))
            self.assertEqual(set(masks_of(family)), {one | other for one, other in product(*sides)})


def texts_of_all():
    return [*"abcdefg", *(f"!{name}" for name in "abcdefg")]


def grammar_noise(chance):
    """Short strings over the alphabet, some of them near texts."""
    if chance.one_in(3):
        return "".join(chr(chance.pick(KNOWN)) for _ in range(chance.between(1, 9)))
    text = written(random_term(chance, Shape(chance.below(5), 2)), lambda: chance.one_in(4)).replace(" ", "")
    at = chance.below(len(text) + 1)
    changed = text[:at] + chance.pick([chr(chance.pick(KNOWN)), ""]) + text[at + chance.below(2) :]
    return chance.pick([text, changed, changed, text[:at]])[:14] or "a"


class Grammar(unittest.TestCase):
    def test_the_tree_is_the_only_one(self):
        """All derivations are counted: there is one where there is a tree, and
        none where there is none."""
        chance, met = Chance(73), Counter()
        for _ in range(800):
            text, depth = grammar_noise(chance), chance.pick([0, 1, 2, 3, 16])
            ways = Tables(text).count("whole", 0, len(text), depth)
            tree = tree_of(text.encode(), depth)
            self.assertEqual(ways, 1 if tree else 0, text)
            met[ways] += 1
            if tree:
                self.assertLessEqual(depth_of(tree), depth)
                self.assertIsNone(tree_of(text.encode(), depth_of(tree) - 1) if depth_of(tree) else None)
        self.assertGreater(min(met.values()), 120)

    def test_what_is_written_is_read(self):
        """The tree of a term's text is the term, but for brackets."""
        chance, met = Chance(74), Counter()
        for _ in range(1500):
            term = random_term(chance, Shape(chance.below(14), 3))
            text = written(term, lambda: chance.one_in(9)).encode()
            tree = tree_of(text)
            met[tree is None] += 1
            if tree:
                self.assertEqual(plain(tree), ended(term))
        self.assertGreater(met[False], 1200)

    def test_bytes_at_fault_by_tables(self):
        chance, met = Chance(75), Counter()
        for _ in range(300):
            text, depth = grammar_noise(chance), chance.pick([0, 1, 2, 3, 16])
            at = byte_at_fault(text.encode(), depth)
            self.assertEqual(at, fault_by_tables(text, depth), (text, depth))
            met["none" if at is None else "end" if at == len(text) else "byte"] += 1
        self.assertGreater(min(met.values()), 20)

    def test_bytes_at_fault_by_completing(self):
        """Every string of five bytes or less can be gone on with if and only
        if it begins some text that the grammar derives."""
        for depth, longest in ((0, 10), (1, 11), (2, 12)):
            every = derived(longest, depth)
            self.assertGreater(len(every), 10)
            fronts = {text[:length] for text in every for length in range(6)}
            for length in range(6):
                for letters in product("0Xa!.+()rec", repeat=length):
                    text = "".join(letters)
                    if "c" in text.replace("rec", "") or "e" in text.replace("re", ""):
                        continue
                    at = byte_at_fault(text.encode(), depth)
                    self.assertEqual(at is None or at == length, text in fronts, (text, depth))
                    if at is None:
                        self.assertIn(text, every)

    def test_both_ways_agree(self):
        """A text has a tree if and only if no byte is at fault."""
        for data, _ in stored_lines():
            text = data[2:]
            if len(text) <= 256:
                self.assertEqual(tree_of(text) is None, byte_at_fault(text) is not None)


class TextMeaning(unittest.TestCase):
    def agree(self, text, term):
        """The sheet by the transitions is the sheet; and after every short
        word both have the same ready sets."""
        right, found = literally(term), contract_of(text)
        if isinstance(right, int):
            self.assertEqual(answer_of(text.decode()).number, right)
            return right
        self.assertEqual(found, right, text)
        self.after_words(found, {marked(term, count_from(1))}, 0, 3)
        return len(right.states) if any(len(one.ready) > 1 for one in right.states) else 0

    def after_words(self, contract, terms, at, longest):
        """Definition 2.3 word by word: internal moves behind the action are
        counted here too."""
        row = contract.states[at]
        self.assertEqual(ready_sets(terms), set(row.ready))
        for action in range(14):
            after = silently(directly_behind(terms, action))
            self.assertEqual(bool(after), action in row.successor)
            if after and longest:
                self.after_words(contract, after, row.successor[action], longest - 1)

    def test_random_texts(self):
        chance, met = Chance(76), Counter()
        for _ in range(500):
            shape = Shape(chance.between(1, 10), chance.between(1, 3), chance.pick([2, 2, 3]), chance.between(2, 4))
            term = random_term(chance, shape)
            text = written(term, lambda: chance.one_in(9)).encode()
            if tree_of(text):
                met[self.agree(text, ended(term)) > 1] += 1
        self.assertGreater(min(met.values()), 100)

    def test_stored_texts(self):
        """Those of the documents, and those made for ranks, variables and
        places."""
        listed = [term.encode() for terms in TERMS.values() for term in terms] + [sample.encode() for sample in SAMPLES]
        listed += [case.data for group in (ranks, variables, places, numberings) for case in group() if len(case.data) < 60]
        done = 0
        for text in listed:
            if answer_of(text.decode()).number not in (22, 23):
                done += 1
                self.agree(text, plain(tree_of(text)))
        self.assertGreater(done, 120)

    def test_many_states(self):
        for text in (rings(7, 9), rings(2, 3, 5), rings(7, 9) + "+b", rings(8, 9)):
            self.assertEqual(literally(plain(tree_of(text.encode()))), contract_of(text) or 19)


@cache
def stored_lines():
    """Every stored case and its line."""
    return [(case.data, text_cases.expected(case.data)) for case in text_cases.cases()]


def mixed(lines):
    """The lines in another order: by turns one of each number, long texts and
    long sheets apart, the shorter first."""
    kinds = {}
    for data, line in sorted(lines, key=lambda one: len(one[0]) + len(one[1])):
        kinds.setdefault((line.split()[0], len(data) > 32, len(line) > 1000), []).append((data, line))
    return [one for turn in zip_longest(*kinds.values()) for one in turn if one]


class WrongTexts(unittest.TestCase):
    def test_each_is_told_apart(self):
        lines = mixed(stored_lines())
        for name, place, attribute, instead in WRONG:
            with self.subTest(name), mock.patch.object(place, attribute, instead):
                apart = islice((data for data, line in lines if text_cases.expected(data) != line), 2)
                self.assertEqual(len([*apart]), 2)

    def test_grouping_cannot_be_seen(self):
        """To the right the trees differ, and no line does: unions of unions
        are the same, and a chain of choices is one place either way."""
        chains = [(data, line) for data, line in stored_lines() if data.count(b"+") > 1 and tree_of(data[2:])]
        self.assertGreater(len(chains), 500)
        with mock.patch.object(texts, "tree_of", regrouped(both_to_the_right)):
            for data, line in chains:
                self.assertEqual(text_cases.expected(data), line)


if __name__ == "__main__":
    unittest.main()
