"""The names of clients: how they are printed, and that no choice of them makes an audit slow."""
import json
import random
import struct

from audit_logs import FAULTY, OK, PROGRAM
from harness import Ran, fault_of, processor_time, run

# What is printed as an escape, from the first character to the last: the controls from DEL on, the
# marks that turn text round, and the line and paragraph separators among these.
ESCAPED = (
    (0x7F, 0x9F), (0x61C, 0x61C), (0x200E, 0x200F), (0x2028, 0x202E), (0x2066, 0x2069),
)
# Other names, and how they are printed: escapes of JSON's own, and what stands for itself.
OTHERS = (
    ("", ""), ('"', '\\"'), ("\\", "\\\\"), ("/", "/"), ("\b\f\n\r\t", "\\b\\f\\n\\r\\t"),
    ("\0\x0b\x1b\x1f", "\\u0000\\u000b\\u001b\\u001f"), (" ", " "), ("\\u007f", "\\\\u007f"),
    ("é", "é"), ("\ufeff", "\ufeff"), ("😀", "😀"), ("\U0010ffff", "\U0010ffff"),
    ("\x1b[31m\x9b2J", "\\u001b[31m\\u009b2J"),
    ("a\u202e\x7fb\u2029", "a\\u202e\\u007fb\\u2029"),
)
# How many names an attack has.
NAMES = 100_000
# The most times the time of random names, and the least seconds that are looked at.
MOST_TIMES, FEW_SECONDS = 3, 0.7
# The first state and the factor of the table of std that hashes.
SEED, FACTOR, MASK = 0x243F6A8885A308D3, 0x9E3779B97F4A7C15, 2**64 - 1
LETTERS = "abcdefghijklmnopqrstuvwxyz0123456789"


# ---- how they are printed


def printed_names():
    """Names, and how they are printed between their quotes."""
    for first, last in ESCAPED:
        for code in range(first, last + 1):
            yield chr(code), f"\\u{code:04x}"
        for code in (first - 1, last + 1):
            yield f"{chr(code)}!", f"{chr(code)}!"
    yield from OTHERS
    yield from ((f"{a} {b}", f"{c} {d}") for (a, c), (b, d) in zip(OTHERS, OTHERS[1:]))


def printed(_program):
    """Faults and histories print a name as a JSON string that steers and turns nothing."""
    for name, text in printed_names():
        shown = f'client "{text}"'
        fault = (f"audit fault: Order 2: {shown} read 3, but 5 was known: line 1 ({shown}, commit "
                 "5) is an earlier call of its client\n")
        order = ("audit ok lines 1 timed 0 reads 0 commits 1 asks 0 reports 0 learns 0 unreported "
                 f"0\nhistory 0 ask 5 line 1 {shown}\nhistory 1 report 5 line 1 {shown}\n")
        for is_ascii in (True, False):
            client = json.dumps(name, ensure_ascii=is_ascii)
            lines = f'{{"client":{client},"commit":5}}\n', f'{{"client":{client},"read":3}}\n'
            for words, given, status, out in (
                ([], "".join(lines), FAULTY, fault), (["--history"], lines[0], OK, order),
            ):
                err = b"fdb_audit: audit fault: Order 2\n" if status == FAULTY else b""
                ran = run([PROGRAM, *words], given.encode())
                yield f"{client} {words}", fault_of(ran, Ran(status, out.encode(), err))
        yield f"{text} read", None if json.loads(f'"{text}"') == name else "it reads otherwise"


# ---- names that were chosen to be slow


def folded(a, b):
    return (a * b ^ a * b >> 64) & MASK


def colliding_front():
    """24 letters behind which any eight more hash alike, in a table of std that hashes."""
    dice = random.Random("front")
    while True:
        front = "".join(dice.choices(LETTERS, k=16)).encode()
        first, second = struct.unpack("<QQ", front)
        last = struct.pack("<Q", folded(first ^ SEED + 32, second ^ FACTOR))
        if all(0x20 < it < 0x7F and it not in b'"\\' for it in last):
            return (front + last).decode()


def attacks():
    """Names that were chosen to be slow to look up, by what they have in common."""
    dice = random.Random("attacks")
    front, numbers = colliding_front(), [f"{it:08}" for it in range(NAMES)]
    yield "that hash alike", [front + it for it in numbers]
    yield "that begin alike, in order", ["x" * 24 + it for it in numbers]
    yield "that begin alike, from the last", ["x" * 24 + it for it in reversed(numbers)]
    yield "that begin alike, shuffled", dice.sample(["x" * 24 + it for it in numbers], NAMES)


def log_of(names):
    """A log with a line for each name."""
    lines = (f'{{"client":"{it}","read":1,"began":{at},"ended":{at}}}\n'
             for at, it in enumerate(names))
    return "".join(lines).encode()


def looked_up(names, most=0):
    """How an audit of a log with these names ends, and what processor time it takes."""
    given = log_of(names)
    return processor_time(lambda: run([PROGRAM], given), most)


def slow(_program):
    """Names that were chosen to be slow take a few times what random names of their length take."""
    dice = random.Random("names")
    wanted, usual = looked_up(["".join(dice.choices(LETTERS, k=32)) for _ in range(NAMES)])
    yield "random names", None if wanted.status == OK else f"it ends with {wanted.status}"
    most = MOST_TIMES * max(usual, FEW_SECONDS)
    for name, names in attacks():
        ran, spent = looked_up(names, most)
        fault = f"{spent:.2f} s, beside {usual:.2f} s of random ones" if spent > most else None
        yield f"names {name}", fault_of(ran, wanted) or fault
