"""Random plans to be checked with their sheets: as emitted, edited by hand, and
damaged.

A record is: lent records (16 bits); the old sheet and the new one, each behind
its length (16 bits); the plan behind its length (32 bits).  Numbers are
little-endian.
"""

from typing import NamedTuple

from tests.reference.chance import Chance
from tests.reference.edit_random import damaged, edited, system
from tests.reference.framing import measured, number_bytes
from tests.reference.plans import write_plan
from tests.reference.sheet_random import changed
from tests.reference.sheets import write_sheet

RANDOM_PLANS = 4000
SEED = 20100909


class Check(NamedTuple):
    records: int
    old: bytes
    new: bytes
    plan: bytes

    def data(self):
        sheets = measured(self.old) + measured(self.new)
        return number_bytes(self.records) + sheets + number_bytes(len(self.plan), 4) + self.plan


def random_inputs():
    chance = Chance(SEED)
    for _ in range(RANDOM_PLANS):
        old, new, plan = system(chance, 1)
        records = chance.pick([len(plan.rows), len(plan.rows) + 2, 60, 300])
        if not chance.one_in(4):
            plan = edited(chance, plan)
        old, new, plan = write_sheet(old), write_sheet(new), write_plan(plan)
        kind = chance.below(16)
        if kind == 0:
            old = changed(chance, old)
        elif kind == 1:
            plan = damaged(chance, plan)
        yield Check(records, old, new, plan)
