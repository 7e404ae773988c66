"""Runs the program, says what was wrong with a run, and writes scripts."""
import contextlib
import json
import math
import os
import resource
import subprocess
import sys
import threading
from typing import NamedTuple

ROOT = os.path.dirname(os.path.dirname(os.path.realpath(__file__)))
EXAMPLES = f"{ROOT}/examples"
# The seconds after which a run hangs, and one of many parts, on a machine that is busy besides.
SECONDS, MANY_SECONDS = 300, 3_000
# How often is tried at most what a busy machine may hold up.
TRIES = 3
# What a pipe takes in one piece.
PIPE_PAGE = 4_096
NOT_ENDED = -1000

DONE, REFUSED, OTHER_ARGUMENTS, NO_MEMORY, NO_STREAM = 0, 1, 2, 3, 5


class Ran(NamedTuple):
    """How a run ended (below 0: by that signal), or how it is to end, and what it wrote."""

    status: int
    out: bytes
    err: bytes


def read(file):
    with open(file, "rb") as it:
        return it.read()


def text_of(file):
    """The text of a file of the repository."""
    with open(f"{ROOT}/{file}", encoding="utf-8") as it:
        return it.read()


def files_below(folder, *endings):
    """The files below a folder of the repository whose names end so, as paths from the top."""
    found = []
    for at, folders, files in os.walk(f"{ROOT}/{folder}"):
        folders[:] = sorted(it for it in folders if it not in ("out", "__pycache__"))
        here = os.path.relpath(at, ROOT)
        found += [f"{here}/{name}" for name in sorted(files) if name.endswith(endings)]
    return found


def first_script():
    return read(f"{EXAMPLES}/first.json")


def first_output():
    """What the first script prints without arguments."""
    return without_history(read(f"{EXAMPLES}/first.out"))


def without_history(out):
    replies, history, _ = out.partition(b"\nhistory ")
    return replies + history[:1]


def run(words, given=b"", seconds=SECONDS, **how):
    """Runs a command on these bytes. With stdin in `how` it reads that in place of them."""
    how = {"stdout": subprocess.PIPE, "stderr": subprocess.PIPE, "cwd": "/", **how}
    how = how if "stdin" in how else {"input": given, **how}
    try:
        ran = subprocess.run(words, timeout=seconds, **how)
    except subprocess.TimeoutExpired as late:
        return Ran(NOT_ENDED, late.stdout or b"", late.stderr or b"")
    return Ran(ran.returncode, ran.stdout or b"", ran.stderr or b"")


def processor_time(call, most=0):
    """What a call gives, and the seconds of processor time that commands take in it.

    They are the least of a few calls, or of those up to one that takes at most so many, since on a
    busy machine the same takes more. What the first gives counts.
    """
    given, seconds = [], []
    while len(given) < TRIES and min(seconds, default=math.inf) > most:
        before = resource.getrusage(resource.RUSAGE_CHILDREN)
        given.append(call())
        after = resource.getrusage(resource.RUSAGE_CHILDREN)
        seconds.append(after.ru_utime + after.ru_stime - before.ru_utime - before.ru_stime)
    return given[0], min(seconds)


# Runs a program within limits, and tells what it took: a small process of its own, since a
# child begins with the peak of its parent.
SPENT = """
import os, resource, sys, time
seconds, memory, *words = sys.argv[1:]
for limit, most in (resource.RLIMIT_CPU, int(seconds)), (resource.RLIMIT_DATA, int(memory)):
    resource.setrlimit(limit, (most, most))
nothing = [(os.POSIX_SPAWN_OPEN, stream, os.devnull, os.O_WRONLY, 0) for stream in (1, 2)]
begun = time.perf_counter()
child = os.posix_spawn(words[0], words, os.environ, file_actions=nothing)
_, ended, used = os.wait4(child, 0)
print(os.waitstatus_to_exitcode(ended), used.ru_utime + used.ru_stime, time.perf_counter() - begun,
      used.ru_maxrss)
"""


class Spent(NamedTuple):
    """How a run ended, and what it took: seconds of all processors and by the wall, and KiB."""

    status: int
    processor: float
    wall: float
    memory: int


def spent(words, seconds, memory):
    """What a program takes that writes to nobody, and may take so much: seconds, and bytes."""
    words = [sys.executable, "-S", "-c", SPENT, str(seconds), str(memory), *words]
    status, processor, wall, most = subprocess.run(words, capture_output=True).stdout.split()
    return Spent(int(status), float(processor), float(wall), int(most))


def under(redirections, program, given=b"", arguments=(), **how):
    """Runs the program with these arguments and the shell's redirections, as '>&-'."""
    return run(["sh", "-c", f'exec "$0" "$@" {redirections}', program, *arguments], given, **how)


def apart(words, pieces, **how):
    """Runs a command that reads each of these pieces, of a page at most, by itself."""
    reader, writer = os.pipe2(os.O_DIRECT)

    def give():
        with contextlib.suppress(BrokenPipeError), os.fdopen(writer, "wb", 0) as to:
            for it in pieces:
                to.write(it)

    giver = threading.Thread(target=give)
    giver.start()
    try:
        return run(words, stdin=reader, **how)
    finally:
        os.close(reader)
        giver.join()


def grouped(lines):
    """Pieces of whole lines, each of a page at most."""
    piece = b""
    for line in lines:
        if len(piece) + len(line) > PIPE_PAGE:
            yield piece
            piece = b""
        piece += line
    yield piece


def fault_of(ran, wanted):
    """Returns how a run differs from what is wanted, or None.

    A stream whose wanted bytes are None is not looked at.
    """
    if ran.status == NOT_ENDED and wanted.status != NOT_ENDED:
        return "it had not ended in time"
    if ran.status != wanted.status:
        return f"status {ran.status} in place of {wanted.status}; it said {ran.err[-200:]!r}"
    for name, got, bytes_wanted in (
        ("error", ran.err, wanted.err), ("output", ran.out, wanted.out)
    ):
        if bytes_wanted is not None and got != bytes_wanted:
            return f"standard {name} differs: {difference(got, bytes_wanted)}"
    return None


def difference(got, wanted):
    """Names the first line that differs, counted from 1."""
    got, wanted = got.split(b"\n"), wanted.split(b"\n")
    at = next(
        (i for i, (a, b) in enumerate(zip(got, wanted)) if a != b), min(len(got), len(wanted))
    )
    line = lambda lines: repr(lines[at][:120]) if at < len(lines) else "nothing"
    return f"line {at + 1} is {line(got)} in place of {line(wanted)}"


def done(out):
    return Ran(DONE, out, b"")


def faulted(status, line):
    return Ran(status, b"", f"fdb_replay: {line}\n".encode())


def refused(why):
    return faulted(REFUSED, f"script refused: {why}")


READING_FAILED = faulted(NO_STREAM, "reading failed")
OUT_OF_MEMORY = faulted(NO_MEMORY, "want of memory")
ARGUMENTS_REFUSED = faulted(OTHER_ARGUMENTS, "words refused")


def members(**texts):
    """Writes an object from the JSON text of each member; one whose text is None is left out."""
    return (
        "{" + ",".join(f'"{name}":{text}' for name, text in texts.items() if text is not None) + "}"
    )


def script(rounds="[]", **changed):
    """Writes a script from the JSON texts of its members."""
    top = {"epoch_end": "0", "recovery": "100", "clients": "1", "rounds": rounds}
    return members(**{**top, **changed})


def written(rounds, **changed):
    """Writes a script from its values: rounds of dicts, and members of the top level."""
    return json.dumps(
        {"epoch_end": 0, "recovery": 100, "clients": 1, **changed, "rounds": rounds}
    ).encode()


def command(do, **changed):
    """Writes a command of client 0 from the JSON texts of its members."""
    return members(**{"do": f'"{do}"', "client": "0", **changed})


def round_of(*commands):
    return "[" + ",".join(commands) + "]"


GRV = command("grv")
ASK = command("ask", at="1000")
REPORT = command("report", num="1")
