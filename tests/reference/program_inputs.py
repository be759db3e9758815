"""Inputs of the connecting program, each stored with a crate whose program
reads it."""

from .actions import mask_of
from .cases import M1_NEW, M1_OLD, A, B
from .framing import measured
from .sheets import SERVICE, Contract, state, write_sheet


def program_input(k, first, second):
    return bytes([k]) + measured(first) + second


def round_sheet(states, *others):
    """As many states in a round, gone through by a; the other actions lead
    from a state to itself."""
    rows = [state([mask_of(A, *others)], [(i + 1) % states, *[i] * len(others)]) for i in range(states)]
    return write_sheet(Contract(2, SERVICE, tuple(rows)))


def stored_inputs():
    """M1; as many situations as the program lends records, 64 for each of the
    16 buffers; and one more, 25 times 41."""
    full = round_sheet(64, B)
    return {
        "connector": program_input(0, M1_OLD, M1_NEW),
        "connector_full": program_input(3, full, full),
        "connector_over": program_input(0, round_sheet(25), round_sheet(41)),
    }
