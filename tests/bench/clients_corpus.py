"""The benchmark's clients with their services, and random ones to compare.

A record is: name (8-bit length and that many bytes); the client's sheet and the
service's, each behind its length (16 bits).  Numbers are little-endian.  The
names of random ones are empty.
"""

from typing import NamedTuple

from tests.bench.shop import CANCEL, NAMES, ORDER, PAYMENT, RECEIPT, REFUSAL, SHOP, sends, takes
from tests.reference.actions import ACTIONS, SUCCESS, mask_of, partner
from tests.reference.chance import Chance
from tests.reference.client_cases import small_sheets
from tests.reference.framing import measured
from tests.reference.sheet_random import careless_sheet, changed
from tests.reference.sheets import CLIENT, SERVICE, Contract, state, write_sheet

RANDOM_CLIENTS = 10000
SEED = 20100910


class Input(NamedTuple):
    name: str
    client: bytes
    service: bytes

    def data(self):
        name = self.name.encode()
        return bytes([len(name)]) + name + measured(self.client) + measured(self.service)


def written(n, client, service):
    return write_sheet(Contract(n, CLIENT, tuple(client))), write_sheet(Contract(n, SERVICE, tuple(service)))


# Customers of the editor's shop: one waits for whatever comes, one for nothing
# but a receipt.

DONE = state([SUCCESS], [])


def customer(*outcomes):
    return [
        sends((partner(ORDER), 1)),
        sends((partner(PAYMENT), 2), (partner(CANCEL), 3)),
        takes(*((partner(outcome), 3) for outcome in outcomes)),
        DONE,
    ]


def editor():
    yield Input("clients, editor, yes", *written(NAMES, customer(RECEIPT, REFUSAL), SHOP))
    yield Input("clients, editor, no", *written(NAMES, customer(RECEIPT), SHOP))


# Sheets of full size: 64 states, 8 ready sets, 14 actions.  One action leads only
# the client on, one only the service, the others anywhere, so that all pairs are
# met.  Every choice agrees on what is kept in all ready sets.

MOST = 64


def full_size(chance, kept, step, stay):
    """The action `step` leads to the next state, `stay` to the same one."""

    def after(place, action):
        if action == step:
            return (place + 1) % MOST
        return place if action == stay else chance.below(MOST)

    states = []
    for place in range(MOST):
        ready = {mask_of(*ACTIONS) | kept}
        while len(ready) < 8:
            ready.add(mask_of(*chance.some(ACTIONS)) | kept)
        states.append(state(ready, [after(place, action) for action in ACTIONS]))
    return states


def full_sheets(name, client_keeps, service_keeps):
    chance = Chance(SEED)
    client = full_size(chance, client_keeps, partner(0), partner(1))
    service = full_size(chance, service_keeps, 1, 0)
    return Input(f"clients, full sheets, {name}", *written(7, client, service))


def inputs():
    yield from editor()
    yield full_sheets("taken", mask_of(partner(0)), mask_of(0))
    yield full_sheets("sent", mask_of(partner(13)), mask_of(13))
    yield full_sheets("success mark", SUCCESS, 0)


def random_inputs():
    """Small ones, and damaged ones."""
    chance = Chance(SEED)
    for _ in range(RANDOM_CLIENTS):
        client, service = small_sheets(chance)
        kind = chance.below(16)
        if kind == 0:
            client = changed(chance, client)
        elif kind == 1:
            service = changed(chance, service)
        elif kind == 2:
            client, service = careless_sheet(chance), careless_sheet(chance)
        yield Input("", client, service)
