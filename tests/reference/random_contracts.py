"""Random contracts, and contracts that resemble a given one."""

from .actions import ACTIONS, SUCCESS, actions_of, mask_of, name_of, partner
from .sheets import CLIENT, MOST_READY, Contract, offered, state


class Shape:
    """How large a random contract gets: at most so many states (at least
    `least`), ready sets in a state and actions in a ready set; and one state
    in `ends` is an end."""

    def __init__(self, n, states, ready, actions, ends=4, least=1):
        self.n = n
        self.states = states
        self.least = least
        self.ready = ready
        self.actions = actions
        self.ends = ends


def random_mask(chance, n, most):
    usable = [action for action in ACTIONS if name_of(action) < n]
    if not usable:
        return 0
    return mask_of(*{chance.pick(usable) for _ in range(chance.between(1, most))})


def random_ready(chance, shape, role):
    """A state's ready sets: the empty one alone for one state in `ends`."""
    if chance.one_in(shape.ends):
        return {SUCCESS if role == CLIENT and not chance.one_in(4) else 0}
    ready = {random_mask(chance, shape.n, shape.actions) for _ in range(chance.between(1, shape.ready))}
    if role == CLIENT:
        ready = {mask | SUCCESS if chance.one_in(6) else mask for mask in sorted(ready)}
    return ready


def with_successors(chance, ready, count):
    return state(ready, [chance.below(count) for _ in offered(ready)])


def random_contract(chance, shape, role):
    count = chance.between(shape.least, shape.states)
    states = [with_successors(chance, random_ready(chance, shape, role), count) for _ in range(count)]
    return Contract(shape.n, role, tuple(states))


def may_end(chance, contract):
    """The contract with the empty ready set added in about one state of six."""
    states = [
        row._replace(ready=tuple(sorted({0, *row.ready})))
        if chance.one_in(6) and len(row.ready) < MOST_READY
        else row
        for row in contract.states
    ]
    return contract._replace(states=tuple(states))


def changed_state(chance, shape, row, count):
    """The state with a ready set more or less, or another successor."""
    ready, successor = set(row.ready), dict(row.successor)
    change = chance.below(3)
    if change == 0 and len(ready) > 1:
        ready.remove(chance.pick(sorted(ready)))
    elif change == 1 and len(ready) < MOST_READY:
        ready.add(chance.pick(sorted(ready)) | random_mask(chance, shape.n, 1))
    elif successor:
        successor[chance.pick(sorted(successor))] = chance.below(count)
    return state(ready, [successor.get(action, chance.below(count)) for action in offered(ready)])


def resembling(chance, shape, contract):
    """The contract with one to three states changed; most such pairs connect
    at some rank or fail late."""
    states = list(contract.states)
    for _ in range(chance.between(1, 3)):
        place = chance.below(len(states))
        states[place] = changed_state(chance, shape, states[place], len(states))
    return contract._replace(states=tuple(states))


def mirrored(contract, chance):
    """A client that takes what the service sends and the other way round; its
    ends are successful.  It complies if the service never chooses internally."""

    def turned(mask):
        return mask_of(*(partner(action) for action in actions_of(mask)))

    states = []
    for row in contract.states:
        every = turned(mask_of(*row.successor))
        ready = {every} if every else {SUCCESS}
        if every and chance.one_in(3):
            ready = {turned(mask) or SUCCESS for mask in row.ready}
        successors = {partner(action): after for action, after in row.successor.items()}
        states.append(state(ready, [successors[action] for action in offered(ready)]))
    return Contract(contract.n, CLIENT, tuple(states))
