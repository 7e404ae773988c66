"""Scripts with ample memory: no number of commands, of rounds, or of anything is refused for it.

No clause says that a call is not refused memory. Each row names what a script has so many of, or
what is so great, how it is made, and the numbers: few, and those beside its bound. What is printed
is what the model says.
"""
from typing import Callable, NamedTuple

from answers import MOST_COMMANDS, MOST_ROUNDS, do
from command_line import MOST_BYTES
from harness import fault_of, run, script, written
from model import expected
from reader import LAST_VERSION, MOST_THROTTLES

FEW = (1, 2, 5, 6, 64, 101)
EACH = (0, *FEW, MOST_COMMANDS - 1, MOST_COMMANDS)
THROTTLE = {"priority": "default", "tag": "t", "rate": 5, "expires": 5_000}
DIGITS = "0102030405060708090A"
# What a script without rounds has, of which blanks stand between the brackets of the rounds.
EMPTY = script()
PIECE = 65_536


class Row(NamedTuple):
    """What there is so many of, the calls that a run makes, how its script is made, the numbers."""

    name: str
    calls: str
    made: Callable
    numbers: tuple
    # The words that it is run with, but for `--history`.
    words: Callable = lambda number: []


def round_of(made, **top):
    """A script of one round, of so many commands, each by its place."""
    return lambda number: written([[made(at) for at in range(1, number + 1)]], **top)


def commits(number):
    return written([[it for at in range(1, number // 2 + 1)
                     for it in (do("ask", at=at), do("report", num=at))]])


def tagged(tags, tag="t"):
    return written([[do("grv", tags=[tag] * tags)]], throttles=[{**THROTTLE, "tag": tag}])


def full_read(at):
    return do("grv", at=at, priority="batch", count=1, tags=["t0"], lock_aware=True, use_min=True)


ALL = "read_script, run, text, push_verdict, drive, replay"
SCRIPTS = (
    Row("reads", ALL, round_of(lambda at: do("grv")), EACH),
    Row("full reads", ALL, round_of(full_read), EACH),
    Row("requests", ALL, round_of(lambda at: do("ask", at=at)), EACH),
    Row("repeats", ALL, round_of(lambda at: do("reask", num=1, at=at)), EACH),
    Row("commits", ALL, commits, EACH),
    Row("refused reports", ALL, round_of(lambda at: do("report", num=at)), EACH),
    Row("full reports", ALL, round_of(
        lambda at: do("report", num=1, locked=True, metadata=DIGITS, min_known=at)), EACH),
    Row("tells", ALL, round_of(lambda at: do("tell", to=1), clients=2), EACH),
    Row("rounds", ALL, lambda number: written([[do("grv")]] * number), EACH),
    Row("empty rounds", ALL, lambda number: written([[]] * number), (0, *FEW, MOST_ROUNDS)),
    Row("clients", ALL, lambda number: written(
        [[do("grv", who) for who in range(number)]], clients=number), (1, 2, 5, 6, 63, 64)),
    Row("throttles", ALL, lambda number: written([[do("grv")]], throttles=[
        {**THROTTLE, "tag": f"t{at}"} for at in range(number)]),
        (0, *FEW, MOST_THROTTLES - 1, MOST_THROTTLES)),
    Row("tags", ALL, tagged, (0, 1, 2, 4, 5)),
    Row("bytes of a tag", ALL, lambda number: tagged(1, "t" * number), (1, 2, 5, 6, 15, 16)),
    Row("a recovery version", ALL, lambda number: written([[do("grv")]], recovery=number),
        (*FEW, PIECE - 1, PIECE, PIECE + 1, 2**32, LAST_VERSION)),
    Row("bytes", ALL, lambda number: EMPTY.replace(
        '"rounds":[]', f'"rounds":[{" " * (number - len(EMPTY))}]').encode(),
        (201, PIECE - 1, PIECE, PIECE + 1, MOST_BYTES - 1, MOST_BYTES)),
    Row("GRV proxies", ALL, lambda number: written([[do("grv")]] * 17), tuple(range(1, 17)),
        lambda number: ["--proxies", str(number)]),
)
TABLES = (SCRIPTS,)


def of_scripts(program):
    """Each script of the table is replayed, and prints what the model says."""
    for row in SCRIPTS:
        for number in row.numbers:
            given = row.made(number)
            ran = run([program, "--history", *row.words(number)], given)
            yield f"{number} {row.name}", fault_of(ran, expected(given, True))
