"""The table in docs/WRONG_BODIES.md, made from the edits that plant wrong bodies.

    python3 tests/planted.py [--write]

By crate: the names of those that the gate tries, by file; and how many others there are.
"""
import sys

sys.dont_write_bytecode = True

import generated
from edits import BESIDE, TRIED, crates, edits_in, pairs_of

DOCUMENT = "docs/WRONG_BODIES.md"


def by_file(crate, folder):
    """The names of a crate's edits in a folder, by the file that each turns first."""
    found = {}
    for name, edit in edits_in(crate, folder)[0].items():
        with open(edit, encoding="utf-8") as it:
            file, _old, _new = next(pairs_of(it.read()))
        found.setdefault(file.removeprefix("src/"), []).append(f"`{name}`")
    return found


def cell_of(tried):
    """What the table has of a crate's edits that the gate tries."""
    return "; ".join(f"{file}: {', '.join(tried[file])}" for file in sorted(tried))


def lines():
    """The lines of the table, with a row for each crate of which the gate tries edits."""
    made, others = ["", "Crate | Tried by the gate", "---|---"], 0
    for crate in crates():
        tried = by_file(crate, TRIED)
        made += [f"{crate} | {cell_of(tried)}"] if tried else []
        others += len(edits_in(crate, BESIDE)[0])
    return [*made, "", f"There are {others} others."]


if __name__ == "__main__":
    generated.main(DOCUMENT, lines())
