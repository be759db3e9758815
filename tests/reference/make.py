"""Writes the stored data: `python3 -m tests.reference.make` from the
repository's root.

    make                    write every stored file again
    make check              say whether every stored file is as it would be written
    make table KIND         how many cases there are of each group
    make show KIND NUMBER   a case, counted from 0: label, bytes, expected lines
    make write KIND FOLDER  the two files of any kind, into a folder

A kind is one of sheets, pairs, steps, clients, runs, choosing, edits, rows, texts.
"""

import sys
from collections import Counter
from pathlib import Path

from . import choosing_cases, client_cases, edit_cases, pair_cases, row_cases, run_cases, sheet_cases, step_cases, text_cases
from .framing import packed
from .program import printed
from .program_inputs import stored_inputs

KINDS = {
    "sheets": sheet_cases,
    "pairs": pair_cases,
    "steps": step_cases,
    "clients": client_cases,
    "runs": run_cases,
    "choosing": choosing_cases,
    "edits": edit_cases,
    "rows": row_cases,
    "texts": text_cases,
}

#: The kinds that a test program runs, and its crate.
STORED = {
    "sheets": Path("crates/sheet_cases"),
    "pairs": Path("crates/pair_cases"),
    "steps": Path("crates/step_cases"),
    "clients": Path("crates/client_cases"),
    "runs": Path("crates/run_cases"),
    "choosing": Path("crates/choosing_cases"),
    "edits": Path("crates/edit_cases"),
    "rows": Path("crates/row_cases"),
    "texts": Path("crates/text_cases"),
}


def files(kind):
    """What a kind's two files hold."""
    cases = list(KINDS[kind].cases())
    lines = "".join(KINDS[kind].expected(case.data) for case in cases)
    return {"stdin": packed(cases), "stdout": lines.encode()}


def stored():
    """Every crate with stored files, and what these hold."""
    for kind, folder in STORED.items():
        yield folder, files(kind)
    for crate, data in stored_inputs().items():
        yield Path("crates") / crate, {"stdin": data, "stdout": printed(data).encode()}


def write(folder, contents):
    folder.mkdir(parents=True, exist_ok=True)
    for name, data in contents.items():
        (folder / name).write_bytes(data)
        print(f"{folder / name}: {len(data)} bytes")


def differing(folder, contents):
    """The stored files that are not as they would be written."""
    for name, data in contents.items():
        path = folder / name
        if not path.is_file() or path.read_bytes() != data:
            yield path


def table(kind):
    groups = Counter(KINDS[kind].group(case.data) for case in KINDS[kind].cases())
    for group in sorted(groups):
        print(f"{group}: {groups[group]}")
    print(f"all: {sum(groups.values())}")


def show(kind, number):
    for i, case in enumerate(KINDS[kind].cases()):
        if i == number:
            print(case.label, case.data.hex(" "), KINDS[kind].expected(case.data), sep="\n", end="")


def main(arguments):
    match arguments:
        case []:
            for folder, contents in stored():
                write(folder, contents)
        case ["check"]:
            wrong = [path for folder, contents in stored() for path in differing(folder, contents)]
            for path in wrong:
                print(f"{path}: not as it would be written")
            return 1 if wrong else 0
        case ["table", kind] if kind in KINDS:
            table(kind)
        case ["show", kind, number] if kind in KINDS and number.isdigit():
            show(kind, int(number))
        case ["write", kind, folder] if kind in KINDS:
            write(Path(folder), files(kind))
        case _:
            print(__doc__)
            return 2
    return 0


if __name__ == "__main__":
    sys.exit(main(sys.argv[1:]))
