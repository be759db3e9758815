"""Wrong versions of request 7/13's rules, each to be put in the place of the
right one: the stored cases must tell them apart."""

import re

from . import text_cases, texts
from .choosing import Refused
from .text_terms import MOST_DEEP, Bracket, Choice, End, Prefix, Rec, Sum, Variable, byte_at_fault, tree_of
from .texts import THE_END, Places, fault_of, masks_of, read_text, unions, uses, variables_at_fault

right_place, right_numbered, right_family_by = Places.place, texts.numbered, Places.family_by

# Trees


def chained(term):
    """The items and the choices between them, in the order of the text, that
    no bracket holds together."""
    if isinstance(term, (Sum, Choice)):
        return [*chained(term.left), term, *chained(term.right)]
    return [term]


def inside(term, group):
    """The term with everything inside it grouped anew."""
    match term:
        case Prefix():
            return term._replace(then=inside(term.then, group))
        case Rec() | Bracket():
            return term._replace(body=inside(term.body, group))
        case Sum() | Choice():
            return group([one if place % 2 else inside(one, group) for place, one in enumerate(chained(term))])
    return term


def grouped_left(items):
    term = items[0]
    for mark, right in zip(items[1::2], items[2::2]):
        term = mark._replace(left=term, right=right)
    return term


def grouped_right(items):
    if len(items) == 1:
        return items[0]
    return items[1]._replace(left=items[0], right=grouped_right(items[2:]))


def split_at(items, kind, group):
    """The items between choices of one kind, each grouped for itself, and
    these choices."""
    parts, marks = [[]], []
    for item in items:
        if isinstance(item, kind) and len(parts[-1]) % 2:
            marks.append(item)
            parts.append([])
        else:
            parts[-1].append(item)
    grouped = [grouped_left(part) for part in parts]
    return group([one for pair in zip(grouped, [*marks, None]) for one in pair][:-1])


def regrouped(group):
    def tree(text):
        term = tree_of(text)
        return term and inside(term, group)

    return tree


def ranks_exchanged(items):
    """(+) binds more tightly than +."""
    return split_at(items, Sum, grouped_left)


def both_to_the_right(items):
    """The right ranks, grouping to the right.  This means the same."""
    return split_at(items, Choice, grouped_right)


def rec_loosest(items):
    """A rec goes on to the end of the choices behind it."""
    for place, item in enumerate(items[:-1:2]):
        if isinstance(item, Rec):
            body = grouped_by_ranks([item.body, *items[2 * place + 1 :]])
            return grouped_by_ranks([*items[: 2 * place], item._replace(body=body)])
    return grouped_by_ranks(items)


def grouped_by_ranks(items):
    return split_at(items, Choice, grouped_left)


def deep_by(bracket=1, prefix=1, rec=1, bare=1, most=MOST_DEEP):
    """Trees that are not too deep if each thing counts so much."""

    def depth(term, text):
        match term:
            case Prefix(_, _, End(at)) if text[at : at + 1] != b"0":
                return bare
            case Prefix():
                return prefix + depth(term.then, text)
            case Rec():
                return rec + depth(term.body, text)
            case Bracket():
                return bracket + depth(term.body, text)
            case Sum() | Choice():
                return max(depth(term.left, text), depth(term.right, text))
        return 0

    def tree(text):
        term = tree_of(text, 3 * MOST_DEEP)
        return term if term and depth(term, text) <= most else None

    return tree


def blanks_between_words(text):
    """Blanks within rec, (+) and ! with its name are not dropped."""
    return None if re.search(rb"r +e|e +c|! +[a-g]|\( +\+|\+ +\)", text) else tree_of(text)


def no_blanks(text):
    return None if b" " in text else tree_of(text)


def other_blanks(text):
    """Tabs and line ends are blanks too."""
    return tree_of(re.sub(rb"[\t\n\r]", b" ", text))


def one_blank(text):
    """Only one blank is dropped at a place."""
    return None if b"  " in text else tree_of(text)


TREES = {
    "+ and (+) of equal rank": regrouped(grouped_left),
    "equal rank, to the right": regrouped(grouped_right),
    "ranks exchanged": regrouped(ranks_exchanged),
    "rec binds loosest": regrouped(rec_loosest),
    "brackets not counted": deep_by(bracket=0),
    "prefixes not counted": deep_by(prefix=0),
    "recs not counted": deep_by(rec=0),
    "a bare action of depth 0": deep_by(bare=0),
    "a bare action of depth 2": deep_by(bare=2),
    "15 deep": deep_by(most=15),
    "17 deep": deep_by(most=17),
    "any depth": deep_by(most=99),
    "blanks dropped only between words": blanks_between_words,
    "blanks not dropped": no_blanks,
    "tabs dropped": other_blanks,
    "one blank dropped": one_blank,
}

# Variables


def uses_of_the_outer(term, recs=None):
    """A shadowed variable belongs to the outer rec."""
    recs = recs or {}
    if isinstance(term, Rec) and term.name in recs:
        yield from uses_of_the_outer(term.body, recs)
    else:
        yield from uses_with(uses_of_the_outer, term, recs, False)


def uses_of_any_prefix(term, recs=None, under=False):
    """A prefix before the rec counts too."""
    under = under or isinstance(term, Prefix)
    yield from uses_with(lambda part, inner: uses_of_any_prefix(part, inner, under), term, recs or {}, under)


def uses_with(go_on, term, recs, guarded):
    match term:
        case Variable():
            yield (term, *recs.get(term.name, (None, False)))
        case Prefix():
            yield from go_on(term.then, {name: (rec, True) for name, (rec, _) in recs.items()})
        case Rec():
            yield from go_on(term.body, recs | {term.name: (term, guarded)})
        case Bracket():
            yield from go_on(term.body, recs)
        case Sum() | Choice():
            yield from go_on(term.left, recs)
            yield from go_on(term.right, recs)


def unbound(tree):
    return [use.at for use, rec, _ in uses(tree) if rec is None]


def under_no_prefix_at_all(tree):
    return [use.at for use, rec, guarded in uses_of_any_prefix(tree) if rec is None or not guarded]


def passing(at_fault):
    """Answers 0 where these variables alone would be at fault and are not."""

    def answered(text, lent):
        after = read_text(text, lent)
        passes = after.answer.number == 23 and not at_fault(tree_of(text))
        return after._replace(answer=after.answer._replace(number=0)) if passes else after

    return answered


# Ready sets


def cut_to(most):
    """Families cut on the way."""

    def cut(one, other):
        return sum(1 << mask for mask in masks_of(unions(one, other))[:most])

    return cut


def either(one, other):
    """+ taken for (+)."""
    return one | other


def side_by_side(one, other):
    """The first with the first, the second with the second, and so on."""
    masks = masks_of(one), masks_of(other)
    longest = max(map(len, masks))
    pairs = (tuple(side[min(place, len(side) - 1)] for side in masks) for place in range(longest))
    return sum({1 << (left | right) for left, right in pairs})


def judged_on_the_way(self, term, left=0, right=0):
    """20 for a part with more than eight."""
    family = right_family_by(self, term, left, right)
    if family.bit_count() > 8:
        raise Refused(20)
    return family


def all_united(self, term, left=0, right=0):
    """(+) taken for +."""
    return unions(left, right) if isinstance(term, Choice) else right_family_by(self, term, left, right)


# Places


def with_own_place(*kinds):
    """Terms of these kinds are places of their own."""

    def place(self, term):
        inner = right_place(self, term)
        if not isinstance(term, kinds):
            return inner
        own = -2 - term.at
        self.terms[own] = self.terms[inner]
        return own

    return place


def stripped(term):
    """What a term says, wherever it stands."""
    return (type(term).__name__, *(stripped(part) if isinstance(part, tuple) else part for part in term[1:]))


def equal_texts(self, term):
    """Equal texts at different places are one place."""
    place = right_place(self, term)
    name = stripped(self.terms[place])
    self.terms[name] = self.terms[place]
    return name


def nothing_is_an_end(self, term):
    """Every term that offers nothing is the end."""
    place = right_place(self, term)
    return THE_END if self.family(place) == 1 else place


def split_choices(self, places):
    """A (+) behind an action is two places."""
    directly = {}

    def parts(place):
        choice = isinstance(self.terms[place], Choice)
        return [part for side in self.sides(place) for part in parts(side)] if choice else [place]

    for prefix in self.open_prefixes(places):
        directly.setdefault(prefix.action, set()).update(parts(self.place(prefix.then)))
    return {action: frozenset(directly[action]) for action in sorted(directly)}


def one_of_them(self, places):
    """Of several places behind an action only the first counts."""
    after = {}
    for prefix in sorted(self.open_prefixes(places), key=lambda prefix: prefix.at):
        after.setdefault(prefix.action, frozenset([self.place(prefix.then)]))
    return dict(sorted(after.items()))


# Numbering and limits


def by_the_text(places):
    """Numbered by the order of the text."""
    sets, behind = [frozenset([places.start])], []
    for one in sets:
        after = places.continuations(one)
        first = {}
        for prefix in sorted(places.open_prefixes(one), key=lambda prefix: prefix.at):
            first.setdefault(prefix.action, after[prefix.action])
        behind.append(after)
        sets += [found for found in dict.fromkeys(first.values()) if found not in sets]
        if len(sets) > 64:
            raise Refused(19)
    return sets, behind


def depth_first(places):
    sets, behind = [], {}

    def go(one):
        if one in behind:
            return
        sets.append(one)
        if len(sets) > 64:
            raise Refused(19)
        behind[one] = places.continuations(one)
        for after in behind[one].values():
            go(after)

    go(frozenset([places.start]))
    return sets, [behind[one] for one in sets]


def ready_sets_first(places):
    """20 as soon as such a state is met."""
    start = places.continuations

    def judging(one):
        places.ready_sets(one)
        return start(one)

    places.continuations = judging
    return right_numbered(places)


# What is answered


def blanks_not_counted(text, lent):
    """Of the 256 bytes."""
    return read_text(bytes(byte for byte in text if byte != 32) if len(text) > 256 else text, lent)


def exact_is_too_little(text, lent):
    after = read_text(text, lent)
    return read_text(text, lent[:-1])._replace(output=lent) if after.answer.length == len(lent) else after


def no_room_first(text, lent):
    """13 before anything else."""
    return read_text(text, lent) if lent else read_text(b"a", lent)


def as_much_as_fits(text, lent):
    after = read_text(text, lent)
    if after.answer.number == 13:
        return after._replace(output=read_text(text, bytes(9999)).output[: len(lent)])
    return after


def length_of_13(text, lent):
    after = read_text(text, lent)
    length = read_text(text, bytes(9999)).answer.length if after.answer.number == 13 else after.answer.length
    return after._replace(answer=after.answer._replace(length=length))


def cleared(text, lent):
    """What is lent beyond the sheet becomes 0."""
    answer, output = read_text(text, lent)
    return read_text(text, lent)._replace(output=output[: answer.length] + bytes(len(lent) - answer.length))


def sheet_of(number, sheet):
    def answered(text, lent):
        after = read_text(text, lent)
        return after._replace(answer=after.answer._replace(sheet=sheet)) if after.answer.number == number else after

    return answered


def names_used(text, lent):
    """n only as large as the names that are used."""
    answer, output = read_text(text, lent)
    used = max((1 + "abcdefg".index(letter) for letter in text.decode("latin1").replace("rec", "") if letter in "abcdefg"), default=0)
    if answer.number == 0:
        output = output[: answer.length - 3] + bytes([used]) + output[answer.length - 2 :]
    return read_text(text, lent)._replace(output=output)


# What is at fault


def number_of(text):
    return read_text(text, bytes(9999)).answer.number


def faults_of(number, rule):
    """Another offset beside one number."""
    return lambda text: rule(text) if number_of(text) == number else fault_of(text)


def without_blanks_counted(text):
    return fault_of(text) - text[: fault_of(text)].count(b" ")


def last_byte(text):
    """Of a text that ends too early."""
    return max(fault_of(text) - 1, 0) if fault_of(text) == len(text) else fault_of(text)


def behind_the_last(text):
    """Trailing blanks left out."""
    return min(fault_of(text), len(text.rstrip(b" ")))


def start_of_the_word(text):
    """The r of rec, the ( of (+), the !."""
    at = fault_of(text)
    found = re.search(rb"(r *(e *(c *([XYZ] *)?)?)?|\( *(\+ *)?|! *)$", text[:at])
    return found.start() if found else at


def deep_at_the_end(text):
    """Depth is judged when all is read."""
    at = byte_at_fault(text, 3 * MOST_DEEP)
    return len(text) if at is None else at


def opening_bracket(text):
    """Of a text that ends too early, the last ( that is open."""
    at, level = fault_of(text), 0
    for place in range(len(text) - 1, -1, -1):
        level += (text[place : place + 1] == b")") - (text[place : place + 1] == b"(")
        if at == len(text) and level < 0:
            return place
    return at


def last_variable(text):
    return variables_at_fault(tree_of(text))[-1]


def its_rec(text):
    """The rec of a variable under no prefix."""
    at = fault_of(text)
    return next(rec.at if rec else at for use, rec, _ in uses(tree_of(text)) if use.at == at)


def first_of_all_variables(text):
    return next(use.at for use, _, _ in uses(tree_of(text)))


def unbound_first(text):
    found = unbound(tree_of(text))
    return found[0] if found else fault_of(text)


#: What each wrong rule is put in the place of.
WRONG = (
    [(name, texts, "tree_of", rule) for name, rule in TREES.items()]
    + [
        ("a shadowed variable of the outer rec", texts, "uses", uses_of_the_outer),
        ("any prefix counts", text_cases, "read_text", passing(under_no_prefix_at_all)),
        ("no prefix needed", text_cases, "read_text", passing(unbound)),
        ("families cut at 8", texts, "unions", cut_to(8)),
        ("families cut at 9", texts, "unions", cut_to(9)),
        ("families cut at 255", texts, "unions", cut_to(255)),
        ("+ taken for (+)", texts, "unions", either),
        ("side by side", texts, "unions", side_by_side),
        ("20 for a part", Places, "family_by", judged_on_the_way),
        ("(+) taken for +", Places, "family_by", all_united),
        ("ends kept apart", Places, "place", with_own_place(End)),
        ("a bracket is a place", Places, "place", with_own_place(Bracket)),
        ("a rec is a place", Places, "place", with_own_place(Rec)),
        ("a variable is a place", Places, "place", with_own_place(Variable)),
        ("equal texts are one place", Places, "place", equal_texts),
        ("what offers nothing is the end", Places, "place", nothing_is_an_end),
        ("(+) is two places", Places, "continuations", split_choices),
        ("one place behind an action", Places, "continuations", one_of_them),
        ("numbered by the text", texts, "numbered", by_the_text),
        ("numbered depth first", texts, "numbered", depth_first),
        ("20 before 19", texts, "numbered", ready_sets_first),
        ("63 states", texts, "MOST_STATES", 63),
        ("65 states", texts, "MOST_STATES", 65),
        ("7 ready sets", texts, "MOST_READY", 7),
        ("9 ready sets", texts, "MOST_READY", 9),
        ("255 bytes", texts, "LONGEST_TEXT", 255),
        ("257 bytes", texts, "LONGEST_TEXT", 257),
    ]
    + [
        (rule.__name__, text_cases, "read_text", rule)
        for rule in (blanks_not_counted, exact_is_too_little, no_room_first, as_much_as_fits, length_of_13, cleared, names_used)
    ]
    + [("sheet 0 for 1", text_cases, "read_text", sheet_of(1, 0)), ("sheet 1 for 22", text_cases, "read_text", sheet_of(22, 1))]
    + [
        (rule.__name__, text_cases, "fault_of", faults_of(22, rule))
        for rule in (without_blanks_counted, last_byte, behind_the_last, start_of_the_word, deep_at_the_end, opening_bracket)
    ]
    + [
        (rule.__name__, text_cases, "fault_of", faults_of(23, rule))
        for rule in (without_blanks_counted, last_variable, its_rec, first_of_all_variables, unbound_first)
    ]
    + [("an offset for 19", text_cases, "fault_of", faults_of(19, len)), ("an offset for 1", text_cases, "fault_of", faults_of(1, len))]
)
