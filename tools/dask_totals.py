"""The totals of a log from those of its parts, and from its faults as they are written."""
import heapq
import json
import re
import sqlite3
import tempfile

KINDS = ("Order", "Wrong", "NotAbove", "Twice", "Stray")
# A fault, up to what is shown of its line: its kind, its line's number, and its client, if known.
TEXT = r'"(?:[^"\\]|\\.)*"'
FAULT = re.compile(
    rf'{{"fault":"(\w+)","at":{{"line":(\d+)(?:,"client":({TEXT}|\d+))?,"\w+":(?:\d+|{TEXT})'
    r'(?:,"began":\d+,"ended":(?:\d+|null))?(?:,"members":{)?'
)
NAME = re.compile(rf"{TEXT}:")
TOTAL = re.compile(r'{"total":({.*?}),"arguments":(.*)}\n?')
# How many groups are printed, and how many are counted in memory before they go to a file.
MOST, IN_MEMORY = 10, 100_000


class Tally:
    """How many faults each of some groups has, of each kind. Many groups are counted in a file."""

    def __init__(self):
        self.counts = {}
        self.file = None

    def add(self, name, kind):
        row = self.counts.get(name)
        if row is None:
            if len(self.counts) >= IN_MEMORY:
                self.flush()
            row = self.counts[name] = [0] * len(KINDS)
        row[kind] += 1

    def flush(self):
        """Adds what has been counted to the file."""
        if self.file is None:
            self.folder = tempfile.TemporaryDirectory()
            self.file = sqlite3.connect(f"{self.folder.name}/counts")
            columns = ", ".join(f"k{it} INTEGER" for it in range(len(KINDS)))
            self.file.execute(f"CREATE TABLE counts (name TEXT UNIQUE, {columns})")
        marks = ", ".join("?" * (1 + len(KINDS)))
        sums = ", ".join(f"k{it} = k{it} + excluded.k{it}" for it in range(len(KINDS)))
        self.file.executemany(
            f"INSERT INTO counts VALUES ({marks}) ON CONFLICT (name) DO UPDATE SET {sums}",
            ((name or "", *row) for name, row in self.counts.items()),
        )
        self.counts = {}

    def most(self):
        """The groups with most faults, with how many of each kind; of ties none comes first."""
        if self.file is None:
            rows = ((name, row) for name, row in self.counts.items())
        else:
            self.flush()
            counts = self.file.execute("SELECT * FROM counts")
            rows = ((it[0] or None, list(it[1:])) for it in counts)
        return heapq.nsmallest(MOST, rows, key=lambda it: (-sum(it[1]), it[0] is not None))


class Totals:
    """What is printed behind the faults of a log."""

    def __init__(self):
        self.counts = {}
        self.arguments = None
        self.members = []
        self.kinds = [0] * len(KINDS)
        self.groups = []

    def add_part(self, text):
        """Adds what was told of a part."""
        total = TOTAL.match(text)
        counts, self.arguments = json.loads(total[1]), total[2]
        for name, count in counts.items():
            before = self.counts.get(name, 0)
            self.counts[name] = None if count is None or before is None else before + count
        self.members = json.loads(self.arguments)["members"]
        self.groups = self.groups or [Tally() for _ in range(1 + len(self.members))]

    def add_fault(self, text):
        """Adds a fault, as it is printed."""
        fault = FAULT.match(text)
        kind = KINDS.index(fault[1])
        self.kinds[kind] += 1
        self.groups[0].add(fault[3], kind)
        at = fault.end()
        for tally in self.groups[1:]:
            begin = NAME.match(text, at).end()
            value, end = json.JSONDecoder().raw_decode(text, begin)
            tally.add(None if value is None else text[begin:end], kind)
            at = end + 1

    def lines(self):
        """Yields what is printed, line by line."""
        counts = json.dumps(self.counts, separators=(",", ":"))
        yield f'{{"total":{counts},"arguments":{self.arguments}}}\n'
        yield f"{{{kinds_text(self.kinds)}}}\n"
        for name, row in self.groups[0].most():
            yield f'{{"client":{name or "null"},{kinds_text(row)}}}\n'
        for member, tally in zip(self.member_names(), self.groups[1:]):
            for name, row in tally.most():
                yield f'{{"members":{{{member}:{name or "null"}}},{kinds_text(row)}}}\n'

    def member_names(self):
        """The names of what is shown, as they are printed."""
        at = self.arguments.index('"members":[') + len('"members":[')
        for _ in self.members:
            end = json.JSONDecoder().raw_decode(self.arguments, at)[1]
            yield self.arguments[at:end]
            at = end + 1


def kinds_text(row):
    """How many faults there are, in all and of each kind."""
    each = ",".join(f'"{name}":{count}' for name, count in zip(KINDS, row))
    return f'"faults":{sum(row)},{each}'


def number_of(text):
    """The number of the line of a fault."""
    return int(FAULT.match(text)[2])
