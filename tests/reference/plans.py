"""Plans written, read and stepped (document 01, "Which pairs connect" and
"The client check and the run")."""

from typing import NamedTuple

from .actions import MOST_NAMES, name_of
from .moves import MOST_RANK, range_of
from .relation import MOST_SITUATIONS

TRAILER = 8
MOST_MOVES = 42


class Plan(NamedTuple):
    """A row is a list of moves, each a code and a next state."""

    n: int
    k: int
    rows: list


def write_plan(plan):
    """Rows, index, trailer, no gaps."""
    rows, index = b"", b""
    for row in plan.rows:
        index += len(rows).to_bytes(4, "little")
        rows += bytes([len(row)])
        for code, after in row:
            rows += bytes([code]) + after.to_bytes(2, "little")
    trailer = len(rows).to_bytes(4, "little") + len(plan.rows).to_bytes(2, "little") + bytes([plan.n, plan.k])
    return rows + index + trailer


def read_row(data, index, count, n, start):
    """A row that begins at `start`, and its end; None if it is none."""
    if start + 1 > index:
        return None
    moves = data[start]
    end = start + 1 + 3 * moves
    if moves > MOST_MOVES or end > index:
        return None
    row = []
    for place in range(start + 1, end, 3):
        code = data[place]
        after = int.from_bytes(data[place + 1 : place + 3], "little")
        in_range = range_of(code) is not None and name_of(code - range_of(code)) < n
        ascending = not row or row[-1][0] < code
        if not (in_range and ascending and after < count):
            return None
        row.append((code, after))
    return row, end


def read_plan(data):
    """The plan of the bytes, or None if they break the plan layout."""
    if len(data) < TRAILER:
        return None
    index = int.from_bytes(data[-8:-4], "little")
    count = int.from_bytes(data[-4:-2], "little")
    n, k = data[-2:]
    if not (1 <= count <= MOST_SITUATIONS and n <= MOST_NAMES and k <= MOST_RANK):
        return None
    if index + 4 * count + TRAILER != len(data):
        return None
    rows, end = [], 0
    for state in range(count):
        entry = index + 4 * state
        if int.from_bytes(data[entry : entry + 4], "little") != end:
            return None
        read = read_row(data, index, count, n, end)
        if read is None:
            return None
        row, end = read
        rows.append(row)
    return Plan(n, k, rows) if end == index else None


def step(data, state, code):
    """Number and next state: 14, 15, 16 in this order."""
    plan = read_plan(data)
    if plan is None:
        return 14, 0
    if state >= len(plan.rows):
        return 15, 0
    return step_row(plan.rows[state], code)


def step_row(row, code):
    for held, after in row:
        if held == code:
            return 0, after
    return 16, 0
