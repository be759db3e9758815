"""Contracts as they stand in an editor: an order is taken, then a payment, then
the outcome is sent."""

from tests.reference.actions import mask_of
from tests.reference.sheets import state

ORDER, PAYMENT, CANCEL, RECEIPT, REFUSAL = 0, 1, 2, 10, 11
NAMES = 5
END = state([0], [])


def takes(*ways):
    """Its partner chooses among ways, each an action and a successor."""
    ways = sorted(ways)
    return state([mask_of(*(action for action, _ in ways))], [after for _, after in ways])


def sends(*ways):
    """It chooses among ways by itself."""
    ways = sorted(ways)
    return state([mask_of(action) for action, _ in ways], [after for _, after in ways])


SHOP = [
    takes((ORDER, 1)),
    takes((PAYMENT, 2), (CANCEL, 4)),
    sends((RECEIPT, 3), (REFUSAL, 4)),
    takes((ORDER, 1), (CANCEL, 4)),
    END,
]

PAYMENT_FIRST = [
    takes((PAYMENT, 1), (CANCEL, 4)),
    takes((ORDER, 2)),
    sends((RECEIPT, 3), (REFUSAL, 4)),
    takes((PAYMENT, 1), (CANCEL, 4)),
    END,
]

NO_RECEIPT = [
    takes((ORDER, 1)),
    takes((PAYMENT, 2), (CANCEL, 2)),
    END,
]
