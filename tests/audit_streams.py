"""Logs that are as large as they may be, or come in pieces, and how far an audit is."""
import os

from audit_lines import MOST_BYTES
from audit_logs import LOGS, PROGRAM, ended_with, judged_as, refused_at
from audit_model import TOLD
from command_line import LINE
from harness import fault_of, read, run, under

LOG = f"{LOGS}/stale.jsonl"
NO_LINES = refused_at(0, "Empty")
# What is read at once.
PIECE = 65_536


# ---- sizes and pieces


def line_of_size(size, end=b"\n"):
    """A line of so many bytes without its end, with letters of two bytes."""
    front, back = b'{"client":"a","read":1,"began":1,"ended":2,"note":"', b'"}'
    rest = size - len(front) - len(back)
    return front + b"x" * (rest % 2) + "ø".encode() * (rest // 2) + back + end


# 64 lines of 1,048,576 bytes with their ends: so much that progress is told.
MUCH = line_of_size(MOST_BYTES - 1) * 64


def log_of_size(size):
    """Lines of so many bytes in all, and how many."""
    count = size // len(LINE) - 4
    log = LINE * count
    return log + line_of_size(size - len(log) - 1), count + 1


def read_lines(count, **how):
    """How the program ends with so many reads of one client at one time, of which none is first."""
    kinds = "commits 0 asks 0 reports 0 learns 0 unreported 1 ordered 0"
    said = f"audit ok lines {count} timed {count} reads {count} {kinds}\n"
    return ended_with(said.encode())._replace(**how)


def sizes(_program):
    """Lines and logs at their limits, and beside those of the pieces that are read."""
    for size in range(MOST_BYTES - 1, MOST_BYTES + 3):
        is_long = size > MOST_BYTES
        for end in (b"\n", b""):
            log = LINE + line_of_size(size, end)
            wanted = refused_at(2, "TooLong") if is_long else read_lines(2)
            yield f"a line of {size} bytes, then {end}", fault_of(run([PROGRAM], log), wanted)
        wanted = refused_at(1, "TooLong") if is_long else read_lines(2)
        log = line_of_size(size - 1, b"\r\n") + LINE
        yield f"a line of {size} bytes with its carriage return", fault_of(
            run([PROGRAM], log), wanted
        )
    for pieces in (1, 2, 3):
        for size in range(pieces * PIECE - 2, pieces * PIECE + 3):
            log, count = log_of_size(size)
            yield f"{len(log)} bytes", fault_of(run([PROGRAM], log), read_lines(count))
            yield f"{len(log)} bytes, without the last line feed", fault_of(
                run([PROGRAM], log[:-1]), read_lines(count)
            )
    yield "no bytes", fault_of(run([PROGRAM]), NO_LINES)
    yield "one line feed", fault_of(run([PROGRAM], b"\n"), refused_at(1, "NotJson"))
    yield "zeros that never end", fault_of(
        under("< /dev/zero", PROGRAM), refused_at(1, "TooLong")
    )
    yield "lines that never end", fault_of(
        run(["sh", "-c", '(echo "{}"; yes) | "$0"', PROGRAM]), refused_at(1, "NoCall")
    )
    # Letters of two bytes over each bound of what is read at once.
    for shift in range(4):
        front = line_of_size(PIECE - 100 - shift)
        yield f"letters over the bounds, {shift}", fault_of(
            run([PROGRAM], front + line_of_size(3 * PIECE) + LINE), read_lines(3)
        )


# ---- how far it is


def told_of(count, lines, end=""):
    return f"fdb_audit: {count} bytes, {lines} calls read{end}\n"


def progress(_program):
    """With --progress, standard error tells how far a long reading is; all else is as without."""
    log = read(LOG)
    stale = judged_as(log, [])
    yield "a fault", fault_of(run([PROGRAM, "--progress"], log), stale)
    yield "a file", fault_of(run([PROGRAM, LOG, "--progress"]), stale)
    yield "no line", fault_of(run([PROGRAM, "--progress"]), NO_LINES)
    yield "no JSON", fault_of(run([PROGRAM, "--progress"], b"{}\n"), refused_at(1, "NoCall"))
    yield "standard error full", fault_of(
        under("2> /dev/full", PROGRAM, MUCH, ["--progress"]), read_lines(64)
    )
    less = line_of_size(MOST_BYTES - 1) * 63 + line_of_size(MOST_BYTES - 2)
    for name, given, tells in (
        ("67,108,864 bytes", MUCH, [(TOLD, 64)]),
        ("one line more", MUCH + LINE, [(TOLD, 64)]),
        ("one byte less", less, []),
        ("twice as many", MUCH * 2, [(TOLD, 64), (2 * TOLD, 128)]),
    ):
        count = given.count(b"\n")
        err = "".join(told_of(*it) for it in tells)
        if tells:
            err += told_of(len(given), count, "; judging")
        wanted = read_lines(count)._replace(err=err.encode())
        yield name, fault_of(run([PROGRAM, "--progress"], given), wanted)
    told = told_of(TOLD, 64) + told_of(TOLD, 64, "; judging")
    for name, words, given, err in (
        ("on a terminal", [], MUCH, told),
        ("on a terminal, asked for", ["--history", "--progress"], MUCH, told),
        ("on a terminal, one byte less", [], less, ""),
        ("on a terminal, a name behind all flags", ["--", LOG], b"", stale.err.decode()),
    ):
        yield name, difference_on_terminal(words, given, err)


def difference_on_terminal(words, given, wanted):
    """Says what the program writes to a standard error that is a terminal, if it is not this."""
    terminal, behind = os.openpty()
    run([PROGRAM, *words], given, stderr=behind)
    os.close(behind)
    said = b""
    try:
        while more := os.read(terminal, PIECE):
            said += more
    except OSError:
        # That is how a terminal ends behind which nobody is.
        pass
    os.close(terminal)
    said = said.decode().replace("\r\n", "\n")
    return None if said == wanted else f"{said!r} in place of {wanted!r}"
