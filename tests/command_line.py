"""What each of the two programs is asked for by its arguments, and its files and streams."""
import os
import subprocess
import tempfile
from typing import Callable, NamedTuple

import audit_logs
from answers import MOST_COMMANDS
from documents import LOGIC
from harness import NO_MEMORY, NO_STREAM, OTHER_ARGUMENTS, REFUSED, ROOT, SECONDS, Ran, done
from harness import fault_of, first_script, read, refused, run, script, text_of, under, written
from model import expected

HELP = read(f"{ROOT}/tests/help.txt")
# Values of numbers that no program takes.
NO_NUMBERS = ("-1", "x", "", " 1", "1 ", "1.0", "1e0", "0x1", "18446744073709551617", "--history")
# clap takes an integer with a plus.
COUNTS = (("1", "2", "15", "16", "+3", "016"), (*NO_NUMBERS, "0", "17", "4294967297"))
WHOLE = (("0", "9223372036854775807", "+3", "016"), (*NO_NUMBERS, "9223372036854775808"))
# A text may be any, but none that looks like a flag.
TEXTS = (("client", "é", "a=b"), ("-1", "--history"))
# A script may have so many bytes.
MOST_BYTES = 16_777_216
LINE = b'{"client":"a","read":1,"began":1,"ended":2}\n'


class Program(NamedTuple):
    """A program: its flags, its numbers and texts, with values taken and refused, and its help."""

    name: str
    path: str
    flags: tuple
    numbers: dict
    help: bytes
    # An input, another one, one that is refused and how, and one with much to write.
    given: bytes
    other: bytes
    wrong: tuple
    much: bytes
    # How it ends on an input with some arguments, and what of a run is looked at.
    ends: Callable
    seen: Callable = lambda ran: ran
    # What it says where it is asked for its version, if it may be.
    version: bytes = b""

    def ended(self, status, line):
        return Ran(status, b"", f"{self.name}: {line}\n".encode())

    def reading_failed(self):
        return self.ended(NO_STREAM, "reading failed")

    def writing_failed(self):
        return self.ended(NO_STREAM, "writing failed")

    def starved(self):
        return self.ended(NO_MEMORY, "want of memory")

    def words_refused(self):
        return self.ended(OTHER_ARGUMENTS, "words refused")

    def whole(self):
        """All that may be asked for at once, each number with its value."""
        numbers = [[name, taken[0]] for name, (taken, _) in self.numbers.items()]
        return [*numbers, *([it] for it in self.flags)]


def replay(path):
    asks = [[{"do": "ask", "client": 0, "at": it} for it in range(MOST_COMMANDS)]]
    return Program(
        "fdb_replay", path, ("--history",), {"--proxies": COUNTS}, HELP, first_script(),
        script().encode(), (b"{", refused("NotJson")), written(asks),
        lambda given, words: expected(given, "--history" in words),
    )


def audit(_path):
    many = b"".join(LINE.replace(b'"a"', b'"client %d"' % it) for it in range(9_000))
    version = f"fdb_audit {text_of('VERSION').strip()} ({LOGIC.search(text_of('README.md'))[0]})\n"
    return Program(
        "fdb_audit", audit_logs.PROGRAM,
        ("--all", "--summary", "--json", "--history", "--progress"),
        {"--complete": WHOLE, "--margin": WHOLE, "--key": TEXTS},
        read(f"{ROOT}/tests/audit_help.txt"),
        read(f"{audit_logs.LOGS}/stale.jsonl"), LINE,
        (b"{", audit_logs.refused_at(1, "NotJson")), many, audit_logs.judged_as,
        version=version.encode(),
    )


def of(program, group):
    """A group of cases of one of the two."""
    return lambda path: group(program(path))


# ---- arguments


def arguments(it):
    """Arguments ask for something, or are refused before anything is read."""
    with tempfile.TemporaryDirectory(prefix="arguments-") as folder:
        file = f"{folder}/given"
        with open(file, "wb") as to:
            to.write(it.given)
        for words in taken(it, file):
            ends = it.ends(it.given, words)
            ran = run([it.path, *words], it.other if file in words else it.given)
            yield f"the arguments {words}", fault_of(it.seen(ran), ends)
        for words in unwanted(it, file):
            fault = fault_of(run([it.path, *words], it.given), it.words_refused())
            yield f"refused: {words[:9]}", fault
    for redirections, wanted in (
        ("< /", it.words_refused()), ("> /dev/full", it.words_refused()),
        ("2> /dev/full", Ran(OTHER_ARGUMENTS, b"", b"")),
    ):
        yield f"refused, {redirections}", fault_of(under(f"--none {redirections}", it.path), wanted)
    yield "no arguments at all, not even a name", fault_of(nameless(it), it.ends(it.given, []))


def taken(it, file):
    """Arguments that ask for something, of standard input and of a file."""
    some = [[], *([[flag]] for flag in it.flags), it.whole(), it.whole()[::-1]]
    for name, (values, _) in it.numbers.items():
        some += [form for value in values for form in ([[name, value]], [[f"{name}={value}"]])]
    for parts in some:
        words = sum(parts, [])
        yield from (words, [*words, "--"], [*words, "--", file], [*words, file, "--"])
        for at in range(len(parts)):
            yield [*sum(parts[:at], []), file, *sum(parts[at:], [])]


def unwanted(it, file):
    """Arguments that are refused, the first or the last of several among them."""
    whole = sum(it.whole(), [])
    for flag in it.flags:
        yield from ([flag, flag], [f"{flag}=true"], [f"{flag}="], [flag[:-2]], [flag.upper()])
        yield from ([*whole, file, flag], [file, *whole, flag])
    for name, (values, wrong) in it.numbers.items():
        yield from ([name], [name, *whole], [name, values[0], name, values[0]], [name[:-1], "1"])
        yield from ([f"{name}={values[0]}", *whole], [*whole, file, name], [name, b"\xff"])
        yield from ([name, value] for value in wrong)
        yield [name, "-h"]
        if "x" in wrong:
            yield from ([f"{name}={value}"] for value in wrong)
            yield [name, "x", "-h"]
    for one in ("--none", "-p", "-1", *(("--version", "-V") if not it.version else ())):
        yield from ([one], [*whole, one], [*whole, file, one], [one, *whole, file], [one, "--help"])
    for others in ([file], [""], ["--", file], ["1"], [file] * 1_000, [file, "--help"]):
        yield from ([file, *others], [*whole, file, *others], [file, *whole, *others])
    yield from (["--", file, *whole], [*whole, "--", file, "--help"], ["--", file, file])
    yield from ([b"\xff"], [*whole, b"file\xc3"], [b"--help", b"\xff"], [b"--", b"\xff"])


def nameless(it):
    """Runs a program with an empty list of arguments, where this system allows that."""
    with tempfile.TemporaryFile() as given:
        given.write(it.given)
        given.seek(0)
        ran = subprocess.run([], executable=it.path, stdin=given, capture_output=True,
                             timeout=SECONDS)
        return Ran(ran.returncode, ran.stdout, ran.stderr)


def helped(it):
    """Help and the version go to standard output, whatever the arguments before them ask for."""
    whole, number = sum(it.whole(), []), next(iter(it.numbers))
    version = [("--version", "-V", it.version)] if it.version else []
    for long, short, said in (("--help", "-h", it.help), *version):
        for words in ([long], [short], [long, "--none"], [long, long], [short, number, "x"],
                      [long, f"{number}=x"], [*whole, long], [*whole, "none", short],
                      ["none", *whole, long]):
            yield f"the arguments {words}", fault_of(run([it.path, *words], b"{"), done(said))
        yield f"{long} behind --", fault_of(run([it.path, "--", long]), it.reading_failed())
    for redirections, wanted in (
        ("> /dev/full", it.writing_failed()), (">&-", it.writing_failed()),
        ("<&- >&- 2>&-", Ran(NO_STREAM, b"", b"")),
    ):
        yield f"help, {redirections}", fault_of(under(f"--help {redirections}", it.path), wanted)


# ---- files


def named(it):
    """A file that is named is the one that is read, and standard input is left alone."""
    ends = it.ends(it.given, [])
    with tempfile.TemporaryDirectory(prefix="named-") as folder:
        for name in ("given", "-", "--history", "é\n", " two words ", "\tends in all three\t \n",
                     "'\"$x"):
            with open(f"{folder}/{name}", "wb") as to:
                to.write(it.given)
            for words in (["--", name], [name][: name != "--history"], [f"./{name}"]):
                ran = run([it.path, *words], it.other if words else it.given, cwd=folder)
                yield f"the file {words}", fault_of(ran, ends)
        with open(f"{folder}/wrong", "wb") as to:
            to.write(it.wrong[0])
        yield "a wrong input", fault_of(run([it.path, f"{folder}/wrong"], it.given), it.wrong[1])
        for words in ([f"{folder}/none"], ["--history", "--", f"{folder}/none"], [""], ["none"],
                      ["x" * 5_000], [folder], [f"{folder}/given/x"]):
            ran = run([it.path, *words], it.given)
            yield f"no such file: {words[-1][:20]!r}", fault_of(ran, it.reading_failed())
        os.mkfifo(f"{folder}/pipe")
        with subprocess.Popen(["sh", "-c", 'cat given > "$0"', f"{folder}/pipe"], cwd=folder):
            yield "a pipe", fault_of(run([it.path, f"{folder}/pipe"], it.other), ends)
        for redirections in ("<&-", "< /"):
            ran = under(redirections, it.path, arguments=[f"{folder}/given"])
            yield f"a file, {redirections}", fault_of(ran, ends)
        for name, wanted in ((f"{folder}/given", ends), (f"{folder}/none", it.reading_failed()),
                             ("--none", it.words_refused()), ("--help", done(it.help))):
            yield f"what is not asked for is not read, with {name}", left_unread(it, name, wanted)
        yield from no_utf_8(it, folder)


def no_utf_8(it, folder):
    """A file whose name is no UTF-8 cannot be named, and goes through standard input."""
    file = os.fsencode(folder) + b"/\xe9"
    with open(file, "wb") as to:
        to.write(it.given)
    ran = run([it.path, file], it.given)
    yield "a name that is no UTF-8", fault_of(ran, it.words_refused())
    with open(file, "rb") as given:
        ran = run([it.path], stdin=given)
    yield "a file with such a name, as standard input", fault_of(ran, it.ends(it.given, []))


def left_unread(it, argument, wanted):
    """Runs a program on an argument and a pipe, and returns what it took of that or did wrong."""
    reader, writer = os.pipe()
    os.write(writer, b"left")
    os.close(writer)
    with os.fdopen(reader, "rb") as pipe:
        fault = fault_of(run([it.path, argument], stdin=pipe), wanted)
        return fault or (None if pipe.read() == b"left" else "standard input was read")


# ---- streams


def broken(it):
    """A stream that fails ends the run with status 5 and a line; standard error changes none."""
    given, (wrong, is_wrong), ends = it.given, it.wrong, it.ends(it.given, [])
    no_reading, no_writing = it.reading_failed(), it.writing_failed()
    history = ["--history"]
    for redirections, text, words, wanted in (
        (">&-", given, [], no_writing),
        (">&-", given, history, no_writing),
        ("> /dev/full", given, [], no_writing),
        ("> /dev/full", it.other, history, no_writing),
        ("> /dev/full", it.much, history, no_writing),
        (">&-", wrong, [], is_wrong),
        ("> /dev/full", wrong, [], is_wrong),
        ("<&-", b"", [], no_reading),
        ("< /", b"", [], no_reading),
        ("<&- >&-", b"", [], no_reading),
        ("2>&-", given, [], ends._replace(err=b"")),
        ("2> /dev/full", given, [], ends._replace(err=b"")),
        ("2>&-", wrong, [], Ran(REFUSED, b"", b"")),
        ("2> /dev/full", wrong, [], Ran(REFUSED, b"", b"")),
        ("> /dev/full 2>&-", given, [], Ran(NO_STREAM, b"", b"")),
        ("< / 2>&-", b"", [], Ran(NO_STREAM, b"", b"")),
        ("<&- >&- 2>&-", b"", [], Ran(NO_STREAM, b"", b"")),
    ):
        ran = under(redirections, it.path, text, words)
        yield f"{redirections}, {text[:9]} {words}", fault_of(ran, wanted)
    reader, writer = os.pipe()
    os.close(reader)
    yield "output with no reader", fault_of(run([it.path], given, stdout=writer), no_writing)
    os.close(writer)
    half = ["bash", "-c", 'set -o pipefail; "$0" --history | head -c 1 > /dev/null', it.path]
    yield "output closed half way", fault_of(run(half, it.much), no_writing)
    for size in (1, 2, 3, 7, 64, 1_000):
        yield f"input in pieces of {size} bytes", fault_of(in_pieces(it, given, size), ends)


def in_pieces(it, given, size):
    pipes = {"stdin": subprocess.PIPE, "stdout": subprocess.PIPE, "stderr": subprocess.PIPE}
    with subprocess.Popen([it.path], bufsize=0, **pipes) as started:
        try:
            for at in range(0, len(given), size):
                started.stdin.write(given[at : at + size])
        except BrokenPipeError:
            pass
        out, err = started.communicate(timeout=SECONDS)
    return Ran(started.returncode, out, err)
