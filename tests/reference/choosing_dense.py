"""A choosing sheet that means the longest sheet there can be: 64 states, each
with eight ready sets and all actions; and one with a state more, found last.

All states but the start have the 25 rows from 7 on, and some of the rows 1 to
6.  All lists have eight rows, and nearly all open rows offer every action.
"""

from .actions import ACTIONS, MOST_NAMES
from .chance import Chance
from .choosing import MOST_ROWS, MOST_UNDER, Choosing, hiding, open_row

SOME, ALWAYS = range(1, 7), range(7, MOST_ROWS)
HIDING = {0: [1, 2, 3, 4, 5, 6, 30, 31], 28: range(7, 15), 29: range(12, 20), 30: range(20, 28), 31: range(23, 31)}

#: Each of these offers one action less, so that there are eight ready sets.
NARROW = range(7, 14)

#: Chosen for what they give: 64 states; and, late, row 6 alone of the rows 1 to
#: 6 in the last of them.
SEED, SEED_LATE = 0, 52


def window(start, size):
    """So many of the rows from 7 on, round about."""
    return {7 + (start + place) % len(ALWAYS) for place in range(size)}


def leads(chance):
    """For an action, where each of the rows 1 to 6 leads among them."""
    return [{1 + chance.below(6)} | ({1 + chance.below(6)} if chance.one_in(3) else set()) for _ in SOME]


def dense(late):
    """Late, the last action of row 6 leads to none of the rows 1 to 6.  So the
    last action of the last state leads to a set with none of them, the 65th."""
    chance = Chance(SEED_LATE if late else SEED)
    among = [leads(chance) for _ in ACTIONS]
    if late:
        among[13][5] = set()
    rows = []
    for row in range(MOST_ROWS):
        if row in HIDING:
            rows.append(hiding(*HIDING[row]))
            continue
        successors = {}
        for action in ACTIONS:
            chosen = among[action][row - 1] if row in SOME else set()
            successors[action] = chosen | window(3 * row + 7 * action, MOST_UNDER - len(chosen))
        if row in NARROW:
            del successors[2 * (row - 7)]
        rows.append(open_row(successors))
    return Choosing(MOST_NAMES, tuple(rows))
