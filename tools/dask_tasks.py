"""What a worker does for audit_on_dask: fdb_audit cuts a block of a log, or judges a part."""
import contextlib
import json
import os
import re
import shutil
import subprocess
import tempfile
from typing import NamedTuple

from distributed import get_worker

# What fdb_audit says of a line that it refuses, and the line's number.
REFUSED = re.compile(rb"fdb_audit: logs refused: \w+ (\d+)")
# The member of a line of a part that has its number in the whole log.
NUMBER = "split_line"
# A line that no log refuses for its own sake, with times and without.
GOOD = {True: b'{"read":1,"began":0,"ended":0}\n', False: b'{"client":"a","read":1}\n'}
# What is kept of a line to be refused: one byte more than a line may have.
MOST_BYTES = 1_048_577
# How many bytes are copied at once.
COPIED = 1 << 20
DONE, LOG_REFUSED, FAULT = 0, 1, 4


class Asked(NamedTuple):
    """How a log is cut and judged."""

    program: str
    key: str
    parts: int
    arguments: tuple[str, ...]


class Cut(NamedTuple):
    """What became of a block: the lines of each part, and the first with times and without.

    Where a line of it is refused, these are of the lines above it, and `refused` is its number.
    What fdb_audit says where it ends otherwise is in `said`.
    """

    counts: list[int]
    timed: int | None = None
    untimed: int | None = None
    refused: int | None = None
    status: int = DONE
    said: bytes = b""


class Stored:
    """Bytes in a file of this worker, which goes with them: they are read where they are sent."""

    def __init__(self, file):
        self.file = file
        self.size = os.path.getsize(file)

    def __sizeof__(self):
        return self.size

    def __reduce__(self):
        with open(self.file, "rb") as it:
            return stored, (it.read(),)

    def __del__(self):
        with contextlib.suppress(OSError):
            os.remove(self.file)

    def part(self, at, size):
        """Some of the bytes, from a place on."""
        with open(self.file, "rb") as it:
            it.seek(at)
            return it.read(size)


class Judged(NamedTuple):
    """How an audit of a part ended, its faults, a line each, and its totals."""

    status: int
    said: bytes
    faults: Stored | None
    totals: bytes


def room():
    """Where this worker has its files."""
    try:
        return get_worker().local_directory
    except ValueError:
        return None


def folder():
    """A folder of a task's own."""
    return tempfile.TemporaryDirectory(dir=room())


def kept(file):
    """What is in a file of a task's own, for longer than the task."""
    to, name = tempfile.mkstemp(dir=room())
    os.close(to)
    os.replace(file, name)
    return Stored(name)


def stored(told):
    """These bytes, in a file."""
    to, name = tempfile.mkstemp(dir=room())
    with open(to, "wb") as it:
        it.write(told)
    return Stored(name)


def sizes(block):
    """How many lines a block has, and how many bytes."""
    return block.count(b"\n") + (not block.endswith(b"\n") and bool(block)), len(block)


def split(block, first, asked, into):
    """Runs fdb_audit on a block, below so many lines."""
    words = ["--split", str(asked.parts), "--into", into, "--key", asked.key, "--first", str(first)]
    return subprocess.run([asked.program, *words], input=block, capture_output=True)


def cut(block, first, asked):
    """Cuts a block below so many lines: what became of it, and the piece of each part."""
    with folder() as own:
        into = f"{own}/parts"
        ran = split(block, first, asked, into)
        if ran.returncode == DONE:
            told = json.loads(ran.stdout)
            names = (f"{into}/{part:04}.jsonl" for part in range(asked.parts))
            pieces = [kept(it) if os.path.exists(it) else None for it in names]
            return Cut(told["parts"], told["timed"], told["untimed"]), pieces
        refused = REFUSED.match(ran.stderr)
        if ran.returncode != LOG_REFUSED or not refused:
            return Cut([], status=ran.returncode, said=ran.stderr), []
        number = int(refused[1])
        above, _ = cut(lines_above(block, number - first - 1), first, asked)
        return above._replace(counts=[], refused=number), []


def lines_above(block, count):
    """The first so many lines of a block."""
    end = 0
    for _ in range(count):
        end = block.index(b"\n", end) + 1
    return block[:end]


def refusal(block, first, number, timed, asked):
    """What is said of a line that is refused, by its number, below lines with times or without."""
    at = len(lines_above(block, number - first - 1))
    end = block.find(b"\n", at)
    line = block[at : len(block) if end < 0 else end][:MOST_BYTES]
    above = GOOD.get(timed, b"")
    with folder() as own:
        return split(above + line, number - 1 - bool(above), asked, f"{own}/parts").stderr


def other_times(number, timed, asked):
    """What is said of a line that has times where those above it have none, or the reverse."""
    with folder() as own:
        return split(GOOD[timed] + GOOD[not timed], number - 2, asked, f"{own}/parts").stderr


def info(made):
    """What became of a block, without its pieces."""
    return made[0]


def piece(made, part):
    return made[1][part]


def judge(pieces, asked):
    """Judges a part, which is made of a piece of each block; none where it has no line."""
    pieces = [it for it in pieces if it]
    if not pieces:
        return Judged(DONE, b"", None, b"")
    with folder() as own:
        log, said, faults = f"{own}/part.jsonl", f"{own}/said", f"{own}/faults"
        with open(log, "wb") as to:
            for it in pieces:
                with open(it.file, "rb") as lines:
                    shutil.copyfileobj(lines, to, COPIED)
        words = [log, "--key", asked.key, "--json", "--numbers", NUMBER, *asked.arguments]
        with open(said, "wb") as out:
            ran = subprocess.run([asked.program, *words], stdout=out, stderr=subprocess.PIPE)
        totals = []
        with open(said, "rb") as lines, open(faults, "wb") as to:
            for text in lines:
                if text.startswith(b'{"fault":'):
                    to.write(text)
                else:
                    totals.append(text)
        return Judged(ran.returncode, ran.stderr, kept(faults), b"".join(totals))


def ending(judged):
    """How an audit of a part ended, with its totals, and how many bytes its faults have."""
    return judged._replace(faults=None), judged.faults.size if judged.faults else 0


def faults_from(judged, at, size):
    """Some bytes of the faults of a part."""
    return judged.faults.part(at, size)
