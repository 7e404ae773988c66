"""How each of the two programs reads and writes, however many pieces that takes.

No clause says that a program goes on: a body may give up after so many reads or writes, leave out
arguments, or end early at a bound of what is read at once. Each test names what makes its inputs,
and how far they go.
"""
import contextlib
import errno
import fcntl
import os
import resource
import tempfile
import threading

import ample_audits
import ample_watches
import follow
from answers import do
from harness import ROOT, apart, done, fault_of, run, written
from memory import built
from model import expected
from reader import HIGHEST

SOURCE = f"{ROOT}/tests/short.c"
# What is read at once, the least that a pipe holds, and what it takes in one piece.
PIECE, PAGE, MOST_PIPE = 65_536, 4_096, 1_048_576
SET_PIPE_SIZE = 1031
LONG = 1_048_576
# So many bytes at a read or a write, at the most: of one, a long text takes a million of them.
SHORTS = (1, 7, 64, 4_095, PIECE - 1, PIECE, PIECE + 1)
# The numbers of reads and writes that fail, of those of 64 bytes.
FAILED = (1, 2, 1_000, 1_001, 4_097, 10_001)
COUNTS = (1_023, 1_024, 1_025, 4_095, 4_096, 4_097, 5_000)
# The longest argument that the system hands over, with its end.
LONGEST = 131_071
# So many faults are told, each as it comes, and so many pieces come of one byte each.
TOLD, BYTES = 70_000, 131_073
# So many reads of a replay, and lines of a log, have a text of a mebibyte.
READS, LINES = 3_200, 21_000
# Five tags as long as may be, each with a limit that is as long as may be.
TAGS = [f"{it}" * 16 for it in range(5)]
LIMITS = [(it, HIGHEST, HIGHEST) for it in TAGS]


# ---- texts that are long


def script_of(reads, limits, **more):
    """A script of these reads in one round, with throttles of these limits."""
    throttles = [{"priority": "default", "tag": tag, "rate": rate, "expires": expires}
                 for tag, rate, expires in limits]
    return written([reads], throttles=throttles, room=100_000, normal=100_000, **more)


def long(it):
    """Arguments, an input of more than a mebibyte, and how the program ends with as long a text."""
    if it.name == "fdb_replay":
        reads = [do("grv", tags=TAGS)] * READS
        given = script_of(reads, LIMITS, note="a" * LONG)
        return ["--history"], given, expected(given, True)
    words, log, said = ample_audits.all_stale(LINES)
    return words, log.encode(), ample_audits.ends(said)


def with_short(it, preloaded, words, given, **how):
    """Runs a program whose reads and writes are short."""
    env = {"LD_PRELOAD": preloaded, **{f"SHORT{name}": str(it) for name, it in how.items()}}
    return run([it.path, *words], given, env=env)


def short(it):
    """Reads and writes that take few bytes each, interrupted each other time or not.

    Of one byte there are more than a million of each.
    """
    words, given, ends = long(it)
    is_long = len(given) >= LONG and len(ends.out) >= LONG
    yield "texts of a mebibyte", None if is_long else f"{len(given)} and {len(ends.out)} bytes"
    with tempfile.TemporaryDirectory() as folder:
        preloaded = built(folder, SOURCE)
        for most in SHORTS:
            for interrupts in (0, 1):
                how = {"": most, "_INTERRUPTS": interrupts}
                ran = with_short(it, preloaded, words, given, **how)
                said = f"{most} bytes at once{', interrupted' * interrupts}"
                yield said, fault_of(ran, ends)
        for number in FAILED:
            ran = with_short(it, preloaded, words, given, **{"": 64, "_READ": number})
            yield f"read {number} fails", fault_of(ran, it.reading_failed())
            for takes in (0, 1):
                how = {"": 64, "_WRITE": number, "_TAKES": takes}
                ran = with_short(it, preloaded, words, given, **how)
                wanted = it.writing_failed()._replace(out=ends.out[:64 * (number - 1)])
                fails = ("fails", "takes nothing")[takes]
                yield f"write {number} {fails}", fault_of(ran, wanted)


def failing(it):
    """A read or a write is not tried again after any error of the system, but an interruption.

    The second of several reads or writes fails, and those behind it would not.
    """
    ends = it.ends(it.given, [])
    with tempfile.TemporaryDirectory() as folder:
        preloaded = built(folder, SOURCE)
        for why in sorted(set(errno.errorcode) - {errno.EINTR}):
            how, named = {"": 64, "_WHY": why}, errno.errorcode[why]
            wanted = it.starved() if why == errno.ENOMEM else it.reading_failed()
            ran = with_short(it, preloaded, [], it.given, **how, _READ=2)
            yield f"a read fails by {named}", fault_of(ran, wanted)
            wanted = it.writing_failed()._replace(out=ends.out[:64])
            ran = with_short(it, preloaded, [], it.given, **how, _WRITE=2)
            yield f"a write fails by {named}", fault_of(ran, wanted)


# ---- pipes and files


@contextlib.contextmanager
def pipe_to(call, size=MOST_PIPE, flags=0):
    """A pipe of so many bytes, of which another thread is given the other end to do something."""
    reader, writer = os.pipe2(flags)
    fcntl.fcntl(writer, SET_PIPE_SIZE, size)
    other = threading.Thread(target=call, args=[reader])
    other.start()
    try:
        yield writer
    finally:
        os.close(writer)
        other.join()
        os.close(reader)


def byte_by_byte(it):
    """An input of more than 131,072 bytes, each of which is read by itself."""
    _, log, said = ample_audits.rising(2_600)
    given, ends = log.encode(), ample_audits.ends(said)
    if it.name == "fdb_replay":
        given, ends = it.given + b" " * BYTES, it.ends(it.given, [])
    pieces = [given[at : at + 1] for at in range(len(given))]
    fault = None if len(pieces) > 2 * PIECE else "these are too few"
    yield f"{len(pieces)} reads", fault or fault_of(apart([it.path], pieces), ends)


def slow_reader(it):
    """A text of a mebibyte to a pipe that holds a page, of which one byte at a time is taken."""
    words, given, ends = long(it)
    found = bytearray()

    def take(reader):
        while byte := os.read(reader, 1):
            found.extend(byte)

    with pipe_to(take, PAGE) as writer:
        ran = run([it.path, *words], given, stdout=writer)
    yield f"{len(ends.out)} bytes", fault_of(ran._replace(out=bytes(found)), ends)


def limited(it):
    """A file that takes so many bytes and no more has these, and the run ends for that."""
    words, given, ends = long(it)
    size = len(ends.out)
    with tempfile.TemporaryDirectory() as folder:
        for most in (0, 1, PAGE, PIECE - 1, PIECE, PIECE + 1, size // 2, size - 1, size, size + 1):
            limit = lambda: resource.setrlimit(resource.RLIMIT_FSIZE, (most, most))
            with open(f"{folder}/out", "wb+") as out:
                ran = run([it.path, *words], given, stdout=out, preexec_fn=limit,
                          restore_signals=False)
                out.seek(0)
                ran = ran._replace(out=out.read())
            wanted = ends if most >= size else it.writing_failed()._replace(out=ends.out[:most])
            yield f"{most} bytes are taken", fault_of(ran, wanted)


def around(it):
    """Texts and inputs that end beside each bound of what is read at once, up to 16 of them."""
    with tempfile.TemporaryDirectory() as folder:
        for pieces in (1, 2, 3, 16):
            for size in range(pieces * PIECE - 1, pieces * PIECE + 2):
                given, words, ends = of_size(it, size)
                yield f"an input of {size} bytes", fault_of(run([it.path, *words], given), ends)
                with open(f"{folder}/given", "wb") as to:
                    to.write(given)
                ran = run([it.path, *words, f"{folder}/given"], it.wrong[0])
                yield f"a file of {size} bytes", fault_of(ran, ends)
                given, words, ends = of_text(it, size)
                is_so = len(ends.out) == size
                yield f"a text of {size} bytes", fault_of(run([it.path, *words], given), ends) or (
                    None if is_so else f"it has {len(ends.out)}")


def of_size(it, size):
    """An input of so many bytes, arguments, and how the program ends."""
    if it.name == "fdb_replay":
        return it.given + b" " * (size - len(it.given)), [], it.ends(it.given, [])
    _, log, said = ample_audits.long_names(9)
    words, more = ["--key", "k", "--show", "x"], size - len(log)
    return log.replace('"client":', f'"note":"{"n" * (more - 10)}","client":', 1).encode(), words, (
        ample_audits.ends(said))


def of_text(it, size):
    """An input, arguments, and how the program ends with a text of so many bytes.

    That is of a stale read by a client of a long name, or of reads, of which the last tells a limit
    of as many letters and digits as are wanting.
    """
    if it.name != "fdb_replay":
        client = "b" * (size - len(ample_audits.stale(1, client="")) - 1)
        log = ample_audits.line(0, "commit", 5) + ample_audits.line(1, "read", 0, client)
        return log.encode(), [], ample_audits.ends([ample_audits.stale(1, client=client)])
    said, reads, length = [], [], 0
    while not 12 <= (rest := size - length - len(closing(len(reads) + 1))
                     - len(reply(len(reads)))) <= 65:
        has_limits = rest > 1_000
        said.append(reply(len(reads), LIMITS * has_limits))
        reads.append(do("grv", tags=TAGS * has_limits))
        length += len(said[-1])
    # A space, a word and a space, letters, and two numbers behind a space each.
    letters = min(16, rest - 11)
    digits = min(20, rest - 10 - letters)
    last = "t" * letters, 10 ** (digits - 1), 10 ** (rest - 10 - letters - digits)
    said += [reply(len(reads), [last]), closing(len(reads) + 1)]
    given = script_of([*reads, do("grv", tags=[last[0]])], [*LIMITS, last])
    return given, [], done("".join(said).encode())


def reply(number, limits=()):
    """What is said of a read with such limits."""
    texts = "".join(f" limit {tag} {rate} {expires}" for tag, rate, expires in limits)
    return f"0 0 {number} grv 100 unlocked none pos 0{texts}\n"


def closing(reads):
    return f"audit ok events {reads} raised 0 versions 0\n"


# ---- arguments


def many(it):
    """Up to 5,000 arguments are read, to the last one, and as long as the system hands over."""
    for count in COUNTS:
        for one in ("x", "--history", "--none"):
            yield f"{count} times {one}", fault_of(
                run([it.path, *[one] * count], it.given), it.words_refused())
        ran = run([it.path, "--help", *["x"] * (count - 1)], it.given)
        yield f"help in front of {count}", fault_of(ran, done(it.help))
        # (arguments that are no UTF-8 are refused before any is looked at)
        ran = run([it.path, "--help", *["x"] * (count - 2), b"\xff"], it.given)
        yield f"help, and the last of {count} is no UTF-8", fault_of(ran, it.words_refused())
    for size in (PIECE - 1, PIECE, PIECE + 1, LONGEST):
        ran = run([it.path, "x" * size], it.given)
        yield f"a name of {size} bytes", fault_of(ran, it.reading_failed())
        ran = run([it.path, "--help", *["y" * size] * 9], it.given)
        yield f"help in front of nine of {size} bytes", fault_of(ran, done(it.help))


# ---- a watch


def each_told(_program):
    """A watch tells 70,000 faults, each but the last by a write of its own as the next line comes.

    The pipe to it keeps what is written apart, and so does the one from it.
    """
    words, log, said = ample_watches.all_told(TOLD, 4)
    ends, pieces, found = ample_audits.ends(said), log.encode().splitlines(True), []

    def take(reader):
        while piece := os.read(reader, PIECE):
            found.append(piece)

    with pipe_to(take, flags=os.O_DIRECT) as writer:
        ran = apart([ample_audits.PROGRAM, *words], pieces, stdout=writer)
    yield "what is told", fault_of(ran._replace(out=b"".join(found)), ends)
    alone = sum(it.count(b"\n") == 1 for it in found)
    yield "each by itself", None if alone >= TOLD - 1 else f"{alone} are, of {TOLD}"


def told_at_once(_program):
    """It tells what is certain as soon as a read gives less than was asked for, be it a byte less.

    So it does behind reads that gave all, of a line that is long or of many lines.
    """
    for size in (1_000, PAGE, PIECE // 2, PIECE - 2, PIECE - 1, 5 * PIECE - 1):
        for name, log in (("one long line", ample_audits.line(0, "commit", 5)),
                          ("many lines", ample_audits.rising(size // 60)[1])):
            # (and a line of another client, by which the end of the read is believed)
            stale = "".join(
                f'{{"client":"{it}","read":{at},"began":{HIGHEST - 1},"ended":{HIGHEST}}}\n'
                for it, at in (("b", 0), ("c", HIGHEST)))
            note = "n" * (size - len(log) - len(stale) - len('"note":"",'))
            given = log.replace('"client"', f'"note":"{note}","client"', 1) + stale
            with follow.Growing("--follow", "0") as growing:
                fcntl.fcntl(growing.started.stdin, SET_PIPE_SIZE, MOST_PIPE)
                growing.started.stdin.write(given.encode())
                said = growing.told().decode()
            is_so = said.startswith("audit fault: Order ")
            yield f"{len(given)} bytes, {name}", None if is_so else f"it tells {said!r}"
