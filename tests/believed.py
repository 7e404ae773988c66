"""How much a reader has to believe: the definitions that a promise rests on, found by name.

    python3 tests/believed.py [DEFINITION..]      (without any, what the headline rests on)
"""
import glob
import os
import re
import sys
from typing import NamedTuple

ROOT = os.path.dirname(os.path.dirname(os.path.abspath(__file__)))
# What the clauses of `replay` cite: of what it writes, of a refusal, and of a writer that failed.
HEADLINE = (
    ("fdb_replay", "Replay", "Replays"),
    ("fdb_replay", "Replay", "Refuses"),
    ("fdb_replay", "Replay", "IsCut"),
)
BEGIN = re.compile(r"^(?:abbrev )?pub (?:record |data )?(?!(?:use|mod)\b)([^\s:({]+)")
USE = re.compile(r"^use Rattle\.(fdb_\w+)\.specs\.([\w.]+?)(?:\.\{([^}]*)\}| as (\w+))\s*$")
WORD = re.compile(r"[^\W\d][\w-]*")


class Definition(NamedTuple):
    """A definition: where it stands, its name, and its lines without blank ones and comments."""
    crate: str
    file: str
    name: str
    lines: tuple


def read(crate, file):
    """Returns a file's definitions by name, and the names that it takes from elsewhere."""
    with open(f"{ROOT}/crates/{crate}/specs/{file}.antt", encoding="utf-8") as it:
        lines = [line.split("--")[0].rstrip() for line in it]
    found, taken, name = {}, {}, None
    for line in filter(None, lines):
        use, begin = USE.match(line), BEGIN.match(line.strip())
        if use:
            whence = (use[1], use[2].replace(".", "/"))
            taken |= {
                word.strip().split(" as ")[-1]: (*whence, word.strip().split(" as ")[0])
                for word in (use[3] or "").split(",")
            }
            name = None
        elif begin and not line.startswith("  pub"):
            name = begin[1]
            found[name] = [line.strip()]
        elif name and line.startswith("module"):
            name = None
        elif name:
            found[name].append(line.strip())
    return found, taken


def rests_on(roots):
    """Returns all definitions that some rest on, these included."""
    files, todo, found = {}, list(roots), {}
    while todo:
        at = crate, file, name = todo.pop()
        if at in found:
            continue
        if (crate, file) not in files:
            files[crate, file] = read(crate, file)
        own, taken = files[crate, file]
        found[at] = Definition(crate, file, name, tuple(own[name]))
        for word in set(WORD.findall(" ".join(own[name]))):
            if word in own:
                todo.append((crate, file, word))
            elif word in taken and "declared" not in taken[word][1]:
                todo.append(taken[word])
    return list(found.values())


def lines_of(definitions):
    return sum(len(it.lines) for it in definitions)


def counts():
    """How many definitions and lines the headline rests on."""
    found = rests_on(HEADLINE)
    return {"definitions": len(found), "headline": lines_of(found)}


def named(names):
    """The definitions of these names: their crates and files."""
    for path in sorted(glob.glob(f"{ROOT}/crates/*/specs/*.antt")):
        crate, file = path.split("/")[-3], path.split("/")[-1].removesuffix(".antt")
        found = {} if file == "Lib" else read(crate, file)[0]
        yield from ((crate, file, name) for name in names if name in found)


def main(names):
    found, by_file = rests_on(named(names) if names else HEADLINE), {}
    for it in found:
        by_file.setdefault((it.crate, it.file), []).append(it)
    for (crate, file), them in sorted(by_file.items()):
        listed = ", ".join(it.name for it in them)
        print(f"{lines_of(them):4} lines  crates/{crate}/specs/{file}.antt: {listed}")
    print(f"{lines_of(found)} lines, {len(found)} definitions")


if __name__ == "__main__":
    main(sys.argv[1:])
