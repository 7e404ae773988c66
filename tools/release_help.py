"""Reads the help that a program prints: what it is for, its usage, arguments and statuses."""
import re
from typing import List, NamedTuple, Optional, Tuple

USAGE = re.compile(r"^usage: (.*?)\n\n", re.MULTILINE | re.DOTALL | re.IGNORECASE)
ARGUMENT = re.compile(r"^  \[(\w+)\]  +(.*)$")
OPTION = re.compile(r"^ +(?:(-\w), +)?(--[\w-]+)(?: <(\w+)>)?  +(.*)$")
STATUS = re.compile(r"^  (\d+)  (.*(?:\n     .*)*)$", re.MULTILINE)


class Argument(NamedTuple):
    """An argument: its names, the name of its value if it has one, and what it says."""

    short: Optional[str]
    long: Optional[str]
    value: Optional[str]
    says: str

    @property
    def spelled(self):
        names = ", ".join(it for it in (self.short, self.long) if it)
        return " ".join(it for it in (names, self.value) if it)

    @property
    def is_file(self):
        return self.value in ("FILE", "LOGS", "SCRIPT")


class Help(NamedTuple):
    about: str
    usage: str
    arguments: List[Argument]
    options: List[Argument]
    statuses: List[Tuple[str, str]]


def help_of(text):
    """What a text of help says, as clap prints it; as argparse does, the usage alone."""
    lines = text.splitlines()
    return Help(
        lines[0], " ".join(USAGE.search(text)[1].split()),
        [Argument(None, None, *it.groups()) for it in map(ARGUMENT.match, lines) if it],
        [Argument(*it.groups()) for it in map(OPTION.match, lines) if it],
        [(status, " ".join(says.split())) for status, says in STATUS.findall(text)],
    )
