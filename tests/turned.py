"""The function that each wrong body turns, and what one check says of many wrong bodies.

A function is proved over the contracts of what it calls, and where one of these is not proved no
goal of its own is open. So wrong bodies of different functions say nothing of one another, and one
check of a crate tries them all.
"""
import os
import re
from typing import Iterator, NamedTuple, Optional

from edits import pairs_of
from refused_edits import REFUSED

FN = re.compile(r'( *)(?:pub(?:\(\w+\))? )?(?:const )?(?:unsafe )?(?:extern "C" )?fn (\w+)')
# What stands above a function and is of it.
ABOVE = ("//", "#[")
# Where a check says something, and the file and the line there.
AT = re.compile(r"(?:note: )?(?:\./)?((?:src|proofs)/\S+?):(\d+):\d+: ")
# What a check says of code that it does not read as code, and of a proof that names what is gone.
REJECTED = re.compile(r"\S+:\d+:\d+: error\[")
GONE = re.compile(
    r"(?:note: )?(?:\./)?proofs/.*(?:has no field|is not in scope|has no `|was not admitted)"
)
# How much rt shows of what a check says of an edit.
SHOWN = 160


class Function(NamedTuple):
    """A function of a file: its name, its first line and its last one, from 1."""

    name: str
    first: int
    last: int


class Place(NamedTuple):
    """A function by its file in the crate; two of one name in a file are not told apart."""

    file: str
    name: str


def functions_of(text: str) -> Iterator[Function]:
    """The functions of a file that is laid out by rt fmt, with what stands above them."""
    lines = text.split("\n")
    for at, line in enumerate(lines):
        begun = FN.match(line)
        if not begun:
            continue
        first, ends = at, f"{begun[1]}}}"
        while first and lines[first - 1].strip().startswith(ABOVE):
            first -= 1
        last = next((it for it in range(at, len(lines)) if lines[it] == ends), at)
        yield Function(begun[2], first + 1, 1 + (at if line.endswith("}") else last))


def place_in(file: str, text: str, line: int) -> Optional[Place]:
    """The innermost function in which a line of a file stands."""
    holding = [it for it in functions_of(text) if it.first <= line <= it.last]
    return Place(file, max(holding, key=lambda it: it.first).name) if holding else None


class Group:
    """Edits that are tried together: what they make of files, and the functions that each turns."""

    def __init__(self, folder: str):
        self.folder = folder
        self.texts: dict[str, str] = {}
        self.turned: dict[str, set[Place]] = {}

    def takes(self, name: str, edit: str) -> bool:
        """Takes an edit, if it turns functions that no other of the group turns."""
        texts, places = dict(self.texts), set()
        with open(edit, encoding="utf-8") as it:
            pairs = list(pairs_of(it.read()))
        for file, old, new in pairs:
            text = texts[file] if file in texts else self.file(file)
            at = text.find(old.strip(), text.find(old))
            place = place_in(file, text, 1 + text.count("\n", 0, at))
            if text.count(old) != 1 or not place or any(place in it for it in self.turned.values()):
                return False
            places.add(place)
            texts[file] = text.replace(old, new)
        self.texts, self.turned[name] = texts, places
        return True

    def file(self, path: str) -> str:
        with open(f"{self.folder}/{path}", encoding="utf-8") as it:
            return it.read()

    def without(self, names: list[str], edits: dict[str, str]) -> "Group":
        """The group of the others."""
        left = Group(self.folder)
        for name in self.turned:
            if name not in names:
                left.takes(name, edits[name])
        return left

    def is_of(self, line: str, name: str) -> bool:
        """Whether a line of what a check says is of a function that an edit turns."""
        at = AT.match(line)
        if not at:
            return False
        if at[1].startswith("src/"):
            text = self.texts.get(at[1], "")
            return place_in(at[1], text, int(at[2])) in self.turned[name]
        below = os.path.dirname(at[1]).split("/")
        return any(
            below[-1] == it.name and module_of(it.file) == below[1 : 1 + len(module_of(it.file))]
            for it in self.turned[name]
        )

    def rejected(self, lines: list[str]) -> list[str]:
        """The edits whose code was not read as code."""
        return [
            name for name in self.turned
            if any(REJECTED.match(it) and self.is_of(it, name) for it in lines)
        ]

    def said(self, lines: list[str]) -> dict[str, str]:
        """What a check says of each edit first, as rt tells it; where it says nothing none."""
        if not any(it.startswith("logic=not-proved") for it in lines):
            return {}
        told = [it for it in lines if it.startswith("note: ") or ": error" in it]
        told = [it for it in told if not GONE.match(it)]
        found = {
            name: next((it for it in told if self.is_of(it, name)), "") for name in self.turned
        }
        return {name: f"{REFUSED}: {it[:SHOWN]}" for name, it in found.items() if it}


def module_of(file: str) -> list[str]:
    """The folders of proofs/ below which those of a file's functions stand."""
    names = file.removeprefix("src/").removesuffix(".rt").split("/")
    return names[:-1] if names[-1] in ("lib", "main", "mod") else names


def groups_of(folder: str, edits: dict[str, str]) -> list[Group]:
    """Parts edits into groups; those that turn no function, or do not apply, are in none."""
    groups: list[Group] = []
    for name, edit in edits.items():
        own = Group(folder)
        if not any(it.takes(name, edit) for it in groups) and own.takes(name, edit):
            groups.append(own)
    return groups
