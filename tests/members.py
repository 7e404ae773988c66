"""The members of a script as docs/SCRIPT.md tells them, the reader of scripts, and the tests."""
import re

import edges
from harness import files_below, text_of

NAME = re.compile(r"`([a-z_]+)`")
# A row of a table that is no head: a name or names in `code`, and the cells behind them.
ROW = re.compile(r"^(`.*?) \| (.*)$")
THROTTLE = re.compile(r"All of its members are required: (.*), the last two whole numbers")
# A word of a script in the code that reads it.
WORD = re.compile(r'"([a-z_]+)"')
SCRIPTS, READER = "crates/fdb_script/src", "reading"
PRIORITIES = {"system", "default", "batch"}


def part():
    """The part of the document on what a script is."""
    text = text_of("docs/SCRIPT.md")
    return text.split("\n## The script\n")[1].split("\n### What is refused\n")[0]


def told():
    """The members that the document's tables tell of: of the top level, and of each command."""
    top, commands, is_of_commands = set(), {}, False
    for line in part().splitlines():
        row = ROW.match(line)
        if line.startswith("`do` |") or " | " in line and not row:
            is_of_commands = line.startswith("`do` |")
        elif row and is_of_commands:
            cell = row[2].split(" | ")[0]
            parts = (it.partition(": ")[0] for it in cell.split("; "))
            commands[NAME.findall(row[1])[0]] = {name for it in parts for name in NAME.findall(it)}
        elif row:
            top |= set(NAME.findall(row[1]))
    return top, set(NAME.findall(THROTTLE.search(part())[1])), commands


def named(_program):
    """The reader of scripts knows the words that the document tells of, and edges.py tries them."""
    top, of_throttles, commands = told()
    files = [it for it in files_below(SCRIPTS, ".rt") if it.startswith(f"{SCRIPTS}/{READER}")]
    words = {word for file in files for word in WORD.findall(text_of(file))}
    known = top | of_throttles | set(commands) | set().union(*commands.values()) | PRIORITIES
    known |= {"do", "client"}
    yield "each word that is read", f"not told: {words - known}" if words - known else None
    yield "each word that is told", f"not read: {known - words}" if known - words else None
    tried = {do: set(own) - {"client"} for do, own in edges.COMMANDS.items()}
    yield "members of commands", None if tried == commands else f"{tried} in place of {commands}"
    tried = set(edges.TOP), set(edges.THROTTLES)
    is_so = tried == (top, of_throttles)
    yield "other members", None if is_so else f"{tried} in place of {top}, {of_throttles}"
