"""The connecting program's input and print (document 01, "Cases"); it
connects in the paper's mode."""

import sys

from .connecting import ZERO_RECORD, Answer, connect
from .plans import read_plan
from .relation import PAPER

MOST_INPUT = 8192
RECORDS = 1024
PLAN_ROOM = 32768


def lines(answer, rows):
    yield f"answer {answer.number} {answer.sheet} {answer.state}"
    yield f"counts {answer.situations} {answer.plan_states} {answer.rounds}"
    for state, row in enumerate(rows):
        for code, after in row:
            yield f"{state} {code} {after}"


def printed(data):
    """What the connecting program prints for its input, every line with its
    line end."""
    data = data[:MOST_INPUT]
    if len(data) < 3:
        answer, rows = Answer(1, 1), []
    else:
        behind = 3 + int.from_bytes(data[1:3], "little")
        sheets = data[3:behind], data[behind:]
        after = connect(PAPER, *sheets, data[0], bytes(PLAN_ROOM), [ZERO_RECORD] * RECORDS)
        answer = after.answer
        rows = read_plan(after.plan[: answer.plan_length]).rows if answer.number == 0 else []
    return "".join(line + "\n" for line in lines(answer, rows))


if __name__ == "__main__":
    sys.stdout.write(printed(sys.stdin.buffer.read()))
