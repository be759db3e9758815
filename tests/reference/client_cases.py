"""Clients to be checked against services.

A case is: the client sheet's length (16 bits), that sheet, and the service
sheet to the end.  Its line is: number, sheet, state, offset, and 1 for yes
or 0.
"""

from .chance import Chance
from .client_edges import edges
from .compliance import check_client
from .framing import Framed, measured
from .pair_cases import small_shape
from .random_contracts import mirrored, random_contract, resembling
from .sheet_faults import faulty_pairs
from .sheet_random import careless_sheet, changed, untidy_sheet
from .sheets import CLIENT, SERVICE, write_sheet

SEED = 20100904


def framed(label, client, service):
    return Framed(label, measured(client) + service)


def verdict(data):
    behind = 2 + int.from_bytes(data[:2], "little")
    return check_client(data[2:behind], data[behind:])


def expected(data):
    return " ".join(str(int(figure)) for figure in verdict(data)) + "\n"


def group(data):
    found = verdict(data)
    return ("yes" if found.complies else "no") if found.number == 0 else f"{found.number:2}"


def small_system(chance):
    """A service and a client made for it, or for one that resembles it, or
    for none."""
    shape = small_shape(chance)
    service = random_contract(chance, shape, SERVICE)
    kind = chance.below(4)
    if kind == 0:
        return random_contract(chance, shape, CLIENT), service
    return mirrored(service if kind == 1 else resembling(chance, shape, service), chance), service


def small_sheets(chance):
    client, service = small_system(chance)
    return write_sheet(client), write_sheet(service)


def cases():
    chance = Chance(SEED)
    for i in range(700):
        yield framed(f"system {i}", *small_sheets(chance))
    for i in range(80):
        client, service = small_sheets(chance)
        yield framed(f"client changed {i}", changed(chance, client), service)
        yield framed(f"service changed {i}", client, changed(chance, service))
    for i in range(60):
        yield framed(f"careless sheets {i}", careless_sheet(chance), careless_sheet(chance))
    for i in range(20):
        client, service = small_sheets(chance)
        yield framed(f"service first {i}", service, client)
        yield framed(f"two clients {i}", client, client)
        yield framed(f"other names {i}", client, small_sheets(chance)[1])
        yield framed(f"client cut off {i}", client[: chance.below(6)], service)
        yield framed(f"service cut off {i}", client, service[: chance.below(6)])
    for i in range(12):
        client, service = small_sheets(chance)
        yield framed(f"client untidy {i}", untidy_sheet(chance), service)
        yield framed(f"service untidy {i}", client, untidy_sheet(chance))
        yield framed(f"two untidy sheets {i}", untidy_sheet(chance), untidy_sheet(chance))
    for edge in (*edges(), *faulty_pairs(CLIENT, SERVICE)):
        yield framed(*edge)
