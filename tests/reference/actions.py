"""Names, actions and masks (document 01, "Contracts as sheets")."""

MOST_NAMES = 7

#: Action i takes name i and action 7 + i sends it, for i from 0 to 6.
ACTIONS = range(2 * MOST_NAMES)

#: "Bit 14 is the success mark (a client's successful end)".
SUCCESS = 1 << 14


def name_of(action):
    return action % MOST_NAMES


def takes(action):
    return action < MOST_NAMES


def partner(action):
    """Taking a name and sending it are partners."""
    return action + MOST_NAMES if takes(action) else action - MOST_NAMES


def has(mask, action):
    """Whether the mask has the action: "Mask bit j is action j"."""
    return mask >> action & 1 == 1


def mask_of(*actions):
    return sum(1 << action for action in actions)


def actions_of(mask):
    """The actions of a mask, ascending; the success mark is none."""
    return [action for action in ACTIONS if has(mask, action)]


def allowed_mask(n, role):
    """All the bits that a ready set over n names may have in a role."""
    bits = mask_of(*(action for action in ACTIONS if name_of(action) < n))
    return bits | SUCCESS if role == 1 else bits
