"""Wrong versions of the settled mode's rule, each to be put in the place of the
right one: the stored cases must tell them apart."""

from . import connecting, edits, pair_cases, plan_checks, relation
from .moves import START, enabled
from .plan_checks import DELIVERY, TEST, Fault
from .relation import PAPER, SETTLED, Mode, allowed

#: What they stand for.
waits_rightly, delivered_rightly = relation.waits_at_an_end, relation.is_delivered
passes_rightly, kept_rightly = relation.passes, relation.kept_after_rounds
not_delivered_rightly, fault_rightly = plan_checks.not_delivered, plan_checks.fault_of

# What waits, and where


def for_the_client(buffer, old_ready):
    """The counts for the client."""
    return 0 in old_ready and any(buffer[7:])


def for_either(buffer, old_ready):
    return 0 in old_ready and any(buffer)


def always_at_an_end(buffer, old_ready):
    """Whether anything waits is not asked."""
    return 0 in old_ready


def always_waiting(buffer, old_ready):
    """Whether the old state may end is not asked."""
    return any(buffer[:7])


def exactly_one(buffer, old_ready):
    return 0 in old_ready and 1 in buffer[:7]


def above_one(buffer, old_ready):
    return 0 in old_ready and max(buffer[:7]) > 1


def not_the_first_name(buffer, old_ready):
    return 0 in old_ready and any(buffer[1:7])


def not_the_last_name(buffer, old_ready):
    return 0 in old_ready and any(buffer[:6])


def eight_counts(buffer, old_ready):
    return 0 in old_ready and any(buffer[:8])


def empty_alone(buffer, old_ready):
    """The empty ready set is the only one."""
    return tuple(old_ready) == (0,) and any(buffer[:7])


def empty_among(buffer, old_ready):
    """The empty ready set is one of several."""
    return 0 in old_ready and len(old_ready) > 1 and any(buffer[:7])


WAITING = [
    for_the_client,
    for_either,
    always_at_an_end,
    always_waiting,
    exactly_one,
    above_one,
    not_the_first_name,
    not_the_last_name,
    eight_counts,
    empty_alone,
    empty_among,
]

# What is hope


def any_move(buffer, old_ready, service, moves):
    every = moves.straight | moves.with_client | moves.with_service
    return not waits_rightly(buffer, old_ready) or service & every != 0


def straight_too(buffer, old_ready, service, moves):
    return not waits_rightly(buffer, old_ready) or service & (moves.straight | moves.with_service) != 0


def handed_on_only(buffer, old_ready, service, moves):
    """A message that the service takes, not one that it sends."""
    return not waits_rightly(buffer, old_ready) or service & moves.with_service & 0x7F != 0


def sent_only(buffer, old_ready, service, moves):
    return not waits_rightly(buffer, old_ready) or service & moves.with_service & ~0x7F != 0


def in_any_set(buffer, old_ready, service, moves):
    """A move with the service alone is hope for every ready set."""
    return not waits_rightly(buffer, old_ready) or moves.with_service != 0


def unless_it_has_nothing(buffer, old_ready, service, moves):
    """A ready set that has nothing needs no hope."""
    return service == 0 or delivered_rightly(buffer, old_ready, service, moves)


def no_second_part(buffer, old_ready, service, moves):
    """The mode makes no difference."""
    return True


HOPE = [any_move, straight_too, handed_on_only, sent_only, in_any_set, unless_it_has_nothing, no_second_part]

# The second part over all ready sets, those that fail it


def empty_in_the_new(buffer, old_ready, new_ready, moves):
    """The new state's empty ready set instead of the old state's."""
    return [service for service in new_ready if not delivered_rightly(buffer, new_ready, service, moves)]


def empty_in_either(buffer, old_ready, new_ready, moves):
    both = *old_ready, *new_ready
    return [service for service in new_ready if not delivered_rightly(buffer, both, service, moves)]


def failing(buffer, old_ready, new_ready, moves):
    return [service for service in new_ready if not delivered_rightly(buffer, old_ready, service, moves)]


def some_ready_set(buffer, old_ready, new_ready, moves):
    """It is enough that one ready set has hope."""
    wrong = failing(buffer, old_ready, new_ready, moves)
    return wrong if len(wrong) == len(new_ready) else []


def first_ready_set(buffer, old_ready, new_ready, moves):
    return failing(buffer, old_ready, new_ready[:1], moves)


def last_ready_set(buffer, old_ready, new_ready, moves):
    return failing(buffer, old_ready, new_ready[-1:], moves)


def not_the_first(buffer, old_ready, new_ready, moves):
    return failing(buffer, old_ready, new_ready[1:], moves)


def not_the_last(buffer, old_ready, new_ready, moves):
    return failing(buffer, old_ready, new_ready[:-1], moves)


def first_and_last(buffer, old_ready, new_ready, moves):
    return failing(buffer, old_ready, [new_ready[0], new_ready[-1]], moves)


READY_SETS = [
    empty_in_the_new,
    empty_in_either,
    some_ready_set,
    first_ready_set,
    last_ready_set,
    not_the_first,
    not_the_last,
    first_and_last,
]


def tested_by(part):
    """The test with another second part."""

    def passes(mode, buffer, old_ready, new_ready, codes):
        first = passes_rightly(PAPER, buffer, old_ready, new_ready, codes)
        return first and (mode is PAPER or not part(buffer, old_ready, new_ready, allowed(codes)))

    return passes


def found_by(part):
    """The same for the check of a plan."""

    def not_delivered(system, pair):
        old, new = plan_checks.old_state(system, pair), plan_checks.new_state(system, pair)
        row = allowed(plan_checks.codes_of(system, pair))
        return [] if system.mode is PAPER else part(pair.situation.buffer, old.ready, new.ready, row)

    return not_delivered


# The test, the rounds, the mode


def second_part_alone(mode, buffer, old_ready, new_ready, codes):
    """The second part instead of the first."""
    if mode is PAPER:
        return passes_rightly(PAPER, buffer, old_ready, new_ready, codes)
    return not failing(buffer, old_ready, new_ready, allowed(codes))


def other_mode(mode, *arguments):
    return passes_rightly(PAPER if mode is SETTLED else SETTLED, *arguments)


TESTS = [second_part_alone, other_mode]


def holds(mode, old, new, situations, situation, there):
    codes = {code for code, after in situations[situation].items() if after in there}
    ready = old.states[situation.old].ready, new.states[situation.new].ready
    return passes_rightly(mode, situation.buffer, *ready, codes)


def in_rounds(situations, stays):
    """Rounds in which a situation stays by what was there when it began, and
    by the number of rounds before."""
    there, rounds = set(situations), 0
    while True:
        left = {situation for situation in there if stays(situation, there, rounds)}
        if left == there:
            return there, rounds
        there, rounds = left, rounds + 1


def first_round_only(mode, old, new, situations):
    """The second part in the first round only."""

    def stays(situation, there, rounds):
        return holds(mode if rounds == 0 else PAPER, old, new, situations, situation, there)

    return in_rounds(situations, stays)


def with_all_enabled(mode, old, new, situations):
    """The second part with moves to what has gone."""

    def stays(situation, there, _):
        every = holds(mode, old, new, situations, situation, situations)
        return every and holds(PAPER, old, new, situations, situation, there)

    return in_rounds(situations, stays)


def after_the_rounds(mode, old, new, situations):
    """The second part when the paper's rounds are over."""
    kept, before = kept_rightly(PAPER, old, new, situations)

    def stays(situation, there, _):
        return holds(mode, old, new, situations, situation, there)

    there, rounds = in_rounds(kept, stays)
    return there, before + rounds


def within_the_round(mode, old, new, situations):
    """A situation goes by what the same round removed."""
    there, rounds = set(situations), 0
    while True:
        before = len(there)
        for situation in reversed(list(situations)):
            if situation in there and not holds(mode, old, new, situations, situation, there):
                there.remove(situation)
        if len(there) == before:
            return there, rounds
        rounds += 1


def until_the_start_goes(mode, old, new, situations):
    def stays(situation, there, _):
        return START not in there or holds(mode, old, new, situations, situation, there)

    return in_rounds(situations, stays)


def rounds_of_the_paper(mode, old, new, situations):
    return kept_rightly(mode, old, new, situations)[0], kept_rightly(PAPER, old, new, situations)[1]


ROUNDS = [
    first_round_only,
    with_all_enabled,
    after_the_rounds,
    within_the_round,
    until_the_start_goes,
    rounds_of_the_paper,
]


def only_byte_1(byte):
    return SETTLED if byte == 1 else PAPER


def lowest_bit(byte):
    return Mode(byte & 1)


def without_the_highest_bit(byte):
    return SETTLED if byte & 0x7F else PAPER


BYTES = [only_byte_1, lowest_bit, without_the_highest_bit]

# What is at fault in a plan


def last_one_named(system, pair):
    """The last ready set that fails is named, not the first."""
    return not_delivered_rightly(system, pair)[::-1]


def with_enabled_moves(system, pair):
    """All enabled moves instead of the row."""
    old, new = plan_checks.old_state(system, pair), plan_checks.new_state(system, pair)
    moves = allowed([*enabled(system.old, system.new, system.plan.k, pair.situation)])
    return [] if system.mode is PAPER else failing(pair.situation.buffer, old.ready, new.ready, moves)


def before_the_others(system, pair):
    """The second part before the other conditions."""
    wrong = not_delivered_rightly(system, pair)
    return Fault(DELIVERY, 0, wrong[0], *pair) if wrong else fault_rightly(system, pair)


def one_condition(system, pair):
    """Both parts of the test under one number."""
    fault = fault_rightly(system, pair)
    return fault._replace(condition=TEST) if fault.condition == DELIVERY else fault


def for_pairs():
    """Each wrong rule, with the module and the name of what it replaces."""
    yield from ((rule, relation, "waits_at_an_end", rule) for rule in WAITING)
    yield from ((rule, relation, "is_delivered", rule) for rule in HOPE)
    yield from ((rule, relation, "passes", tested_by(rule)) for rule in READY_SETS)
    yield from ((rule, relation, "passes", rule) for rule in TESTS)
    yield from ((rule, connecting, "kept_after_rounds", rule) for rule in ROUNDS)
    yield from ((rule, pair_cases, "mode_of", rule) for rule in BYTES)


def for_edits():
    """The same for the check of plans."""
    yield from ((rule, relation, "waits_at_an_end", rule) for rule in WAITING)
    yield from ((rule, plan_checks, "is_delivered", rule) for rule in HOPE)
    yield from ((rule, plan_checks, "not_delivered", found_by(rule)) for rule in READY_SETS)
    yield from ((rule, plan_checks, "not_delivered", rule) for rule in (last_one_named, with_enabled_moves))
    yield from ((rule, plan_checks, "fault_of", rule) for rule in (before_the_others, one_condition))
    yield from ((rule, edits, "mode_of", rule) for rule in BYTES)
