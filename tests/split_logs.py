"""What fdb_audit does with --split: the parts of a log, which are files, or why there is none."""
import contextlib
import glob
import json
import os
import random
import tempfile
from typing import Iterator, NamedTuple, Optional

from ample_audits import FEW, Row
from audit_lines import MOST_BYTES, line_of, refusal
from audit_logs import PROGRAM, TIMED, UNTIMED, large_log, refused_at, refusals
from audit_search import random_lines, text_of
from harness import NO_STREAM, OTHER_ARGUMENTS, TRIES, Ran, done, fault_of, processor_time, read
from harness import run, spent, under
from reader import HIGHEST, Refused

Case = Iterator[tuple[str, Optional[str]]]

# How many random logs are cut, and into how many parts.
RANDOM, PARTS = 60, (1, 2, 3, 16, 1024)
# How many lines are above.
FIRSTS = (0, 1, 2**32, HIGHEST - 10**6)
# Lines of each shape that a line may have, with times.
SHAPES = (
    b'{"client":"a","read":1,"began":1,"ended":2}',
    b'{"read":1,"began":1,"ended":null,"key":"a"}\r',
    b' { "read" : "01", "began":1,"ended":"2" , "key" : "\\u0061" } \t\r',
    b'{"key":"b","commit":7,"began":1,"ended":2,"key":"a"}',
    b'{"key":"","read":1,"began":1,"ended":2}',
    b'{"key":7,"read":1,"began":1,"ended":2,"note":{"key":"b","x":[{}]}}',
    b'{"key":"7","ask":1,"began":1,"ended":2,"note":"}"}',
    b'{"report":1,"began":1,"ended":2,"split_line":9}',
    b'{"read":18446744073709551615,"began":1,"ended":2,"key":"\xc3\xa6\\"\\u2028"}',
    b'{"read":1,"began":1,"ended":2,"key":"' + b"k" * 1_000 + b'"}',
    b'{"read":1,"began":1,"ended":2,"note":"' + b"n" * (MOST_BYTES - 40) + b'"}',
)
# Lines that are refused, below one with times or one without, and why.
WRONG = (
    (TIMED, b'{"client":"a","learn":"a","began":1,"ended":2}', "BadMember learn"),
    (TIMED, b'{"read":1,"began":1,"ended":2,"key":null}', "BadMember key"),
    (TIMED, b'{"read":1,"began":1,"ended":2,"key":-1}', "BadMember key"),
    (TIMED, b'{"read":1}', "SomeTimes"),
    (UNTIMED, b'{"read":1,"began":1,"ended":2}', "SomeTimes"),
    (UNTIMED, b'{"read":1}', "BadMember client"),
    (b"", b'{"client":"a","learn":"a"}', "BadMember learn"),
    (TIMED, b'{"read":1,"began":1,"ended":2,"note":"' + b"n" * 1_048_576 + b'"}', "TooLong"),
)


class Split(NamedTuple):
    """How a log was cut: how the program ended, and the text of each part."""

    ran: Ran
    parts: dict[int, bytes]


def hash_of(key: str) -> int:
    """FNV-1a, of 64 bits."""
    found = 0xCBF29CE484222325
    for byte in key.encode():
        found = (found ^ byte) * 0x100000001B3 % 2**64
    return found


def numbered(line: bytes, number: int) -> bytes:
    at = line.rindex(b"}")
    return b'%s,"split_line":%d%s\n' % (line[:at], number, line[at:])


def split_as(given: bytes, parts: int, first: int = 0, member: str = "key") -> Split:
    """How a log is to be cut."""
    texts = given.split(b"\n")
    if not texts[-1]:
        texts.pop()
    cut, timed = [b""] * parts, None
    counts = [0] * parts
    for number, text in enumerate(texts, first + 1):
        try:
            line = line_of(text, set(), timed, member)
        except Refused as why:
            line = f"fdb_audit: logs refused: {refusal(number, str(why))}\n"
            return Split(Ran(1, b"", line.encode()), {})
        timed = line.began is not None
        part = 0 if line.key is None else hash_of(line.key) % parts
        cut[part] += numbered(text, number)
        counts[part] += 1
    told = {"parts": counts, "timed": first + 1 if timed else None,
            "untimed": first + 1 if timed is False else None}
    out = json.dumps(told, separators=(",", ":")) + "\n"
    return Split(done(out.encode()), {part: it for part, it in enumerate(cut) if it})


def split(given: bytes, parts: int, *words: str, member: str = "key", **how) -> Split:
    """How the program cuts it."""
    with tempfile.TemporaryDirectory(prefix="split-") as folder:
        into = f"{folder}/parts"
        asked = ["--split", str(parts), "--into", into, "--key", member, *words]
        ran = run([PROGRAM, *asked], given, **how)
        return Split(ran, parts_in(into))


def parts_in(folder: str) -> dict[int, bytes]:
    """The parts that are there, by their names, and whatever else (-1)."""
    found = {}
    for file in glob.glob(f"{folder}/*") + [folder] * os.path.exists(f"{folder}/unfinished"):
        name = os.path.basename(file)
        is_part = len(name) == 10 and name[:4].isdigit() and name.endswith(".jsonl")
        found[int(name[:4]) if is_part else -1] = read(file) if is_part else b""
    return found


def fault_of_split(got: Split, wanted: Split) -> Optional[str]:
    both = {*got.parts, *wanted.parts}
    differ = sorted(it for it in both if got.parts.get(it) != wanted.parts.get(it))
    return fault_of(got.ran, wanted.ran) or (f"the parts {differ} differ" if differ else None)


def cut(_program: str) -> Case:
    """Each line is in the part of its key, once, in order, under its number, byte by byte."""
    whole = b"\n".join(SHAPES)
    for given in (b"", SHAPES[0], whole, whole + b"\n", b"\n".join(SHAPES[::-1]), UNTIMED * 3):
        for parts in PARTS:
            name = f"{len(given)} bytes in {parts} parts"
            yield name, fault_of_split(split(given, parts), split_as(given, parts))
    for first in (*FIRSTS, HIGHEST - len(SHAPES)):
        got = split(whole, 3, "--first", str(first))
        yield f"below {first} lines", fault_of_split(got, split_as(whole, 3, first))
    for at in (HIGHEST, HIGHEST - 2):
        ran = split(TIMED * 3, 3, "--first", str(at)).ran
        line = f"fdb_audit: logs refused: TooMany {HIGHEST}: more than 4294967295 lines\n".encode()
        yield f"below {at} lines", fault_of(ran, Ran(1, b"", line))


def keyed(count: int) -> tuple[list[str], bytes, list[str]]:
    """So many lines, of which each second has a key of its own."""
    log = b"".join(b'{"read":1,"began":1,"ended":2%s}\n' % (b',"key":"k%d"' % at * (at % 2))
                   for at in range(count))
    return [], log, []


SPLITS = (Row("Splitter::new, Splitter::feed, Splitter::finish", keyed, (1, FEW, 65_537)),)
TABLES = (SPLITS,)


def of_lines(_program: str) -> Case:
    """With ample memory a log is cut, however many lines it has."""
    for row in SPLITS:
        for count in row.numbers:
            _, given, _ = row.made(count)
            yield f"{count} lines", fault_of_split(split(given, 16), split_as(given, 16))


def random_parts(_program: str) -> Case:
    """So it is of random logs, of which each text of a key is in one part."""
    for seed in range(RANDOM):
        dice = random.Random(seed)
        lines = [it for _ in range(dice.randrange(1, 40)) for it in random_lines(dice)]
        timed = "began" in lines[0]
        lines = [it for it in lines if ("began" in it) == timed and "learn" not in it]
        given, parts = text_of(lines, dice), dice.choice(PARTS)
        first = dice.choice(FIRSTS)
        got = split(given, parts, f"--first={first}")
        yield f"random log {seed}", fault_of_split(got, split_as(given, parts, first))


def refused(_program: str) -> Case:
    """The first line that is refused is told, by its number, and no part is left."""
    for name, given, _ in refusals():
        yield name, fault_of_split(split(given, 3, member="k"), split_as(given, 3, member="k"))
    for above, line, why in WRONG:
        given = above + line + b"\n" + TIMED
        wanted = Split(refused_at(bool(above) + 1, why), {})
        yield f"{line[:60]!r}", fault_of_split(split(given, 3), wanted)
    given = TIMED * 100_000 + b"{\n"
    wanted = Split(refused_at(100_001, "NotJson"), {})
    yield "behind many lines", fault_of_split(split(given, 16), wanted)


def no_place(_program: str) -> Case:
    """Where the parts cannot be written none is left, and what was there stays as it was."""
    failed = Ran(NO_STREAM, b"", b"fdb_audit: writing failed\n")
    with tempfile.TemporaryDirectory(prefix="split-") as folder:
        words = [PROGRAM, "--split", "3", "--key", "key", "--into"]
        for name in ("0000.jsonl", "0002.jsonl", "1023.jsonl", "unfinished"):
            into = f"{folder}/{name}"
            os.mkdir(into)
            with open(f"{into}/{name}", "wb") as to:
                to.write(b"mine")
            ran = run([*words, into], TIMED * 10)
            there = {it: read(f"{into}/{it}") for it in os.listdir(into)}
            left = None if there == {name: b"mine"} else f"left: {there}"
            yield f"where {name} is", fault_of(ran, failed) or left
        for name in (f"{folder}/none/parts", f"{folder}/0000.jsonl/0000.jsonl", ""):
            yield f"into {name!r}", fault_of(run([*words, name], TIMED), failed)
        os.mkdir(f"{folder}/there")
        ran = run([*words, f"{folder}/there"], TIMED * 10)
        yield "a folder that is there", fault_of_split(
            Split(ran, parts_in(f"{folder}/there")), split_as(TIMED * 10, 3)
        )
        for redirections in ("> /dev/full", ">&-"):
            ran = under(redirections, PROGRAM, TIMED, words[1:] + [f"{folder}/new"])
            left = "parts are left" if os.path.exists(f"{folder}/new") else None
            yield redirections, fault_of(ran, failed) or left
        given = (TIMED[:-2] + b',"note":"' + b"n" * 1_000 + b'"}\n') * 2_000
        limited = 'trap "" XFSZ; ulimit -f 100; exec "$0" "$@"'
        ran = run(["sh", "-c", limited, *words, f"{folder}/few"], given)
        left = "parts are left" if os.path.exists(f"{folder}/few") else None
        yield "files that take no more", fault_of(ran, failed) or left


def arguments(_program: str) -> Case:
    """Of all arguments these are for a log that is cut, and no others."""
    refused_words = Ran(OTHER_ARGUMENTS, b"", b"fdb_audit: words refused\n")
    with tempfile.TemporaryDirectory(prefix="split-") as folder:
        into = ["--into", f"{folder}/parts"]
        whole = ["--split", "2", *into, "--key", "k"]
        for words in (
            whole[2:], whole[:2] + whole[4:], whole[:4], ["--split", "0", *whole[2:]],
            ["--split", "1025", *whole[2:]], ["--split=x", *whole[2:]], ["--split", *whole[2:]],
            [*whole, "--first", "x"], [*whole, "--first", "-1"], [*whole, "--first", "+1"],
            [*whole, "--first", ""], [*whole, "--first", str(HIGHEST + 1)], [*whole, "--json"],
            [*whole, "--margin", "1"], [*whole, "--follow", "1"], [*whole, "--numbers", "n"],
            [*whole, *whole], [*whole, "a", "b"], ["--first", "1"], into, [*whole, "--all"],
        ):
            yield f"refused: {words}", fault_of(run([PROGRAM, *words], TIMED), refused_words)
        with open(f"{folder}/given", "wb") as to:
            to.write(TIMED)
        for words in (
            [*whole, f"{folder}/given"], ["--split=2", *whole[2:], "--", f"{folder}/given"],
            [f"{folder}/given", "--progress", "--first", "0000", *whole],
        ):
            ran = run([PROGRAM, *words], b"{")
            yield f"taken: {words}", fault_of_split(
                Split(ran, parts_in(f"{folder}/parts")), split_as(TIMED, 2)
            )
            for file in glob.glob(f"{folder}/parts/*"):
                os.remove(file)
    for words in (["--split", "2", "--help"], ["--help", "--split=2"]):
        ran = run([PROGRAM, *words])
        told = b"--into <DIR>" in ran.out and b"--first <N>" in ran.out
        yield f"{words}", None if ran.status == 0 and told else f"{ran}"
    ran = run([PROGRAM, "--key", "k", "--", "--split"], b"")
    yield "a file of that name", fault_of(ran, Ran(NO_STREAM, b"", b"fdb_audit: reading failed\n"))


def costs(_program: str) -> Case:
    """It takes no more than an audit by key, and no more memory for a longer log."""
    with tempfile.TemporaryDirectory(prefix="split-") as folder:
        log, longer = f"{folder}/log", f"{folder}/longer"
        text, _ = large_log()
        with open(log, "wb") as to:
            to.write(text)
        with open(longer, "wb") as to:
            to.write(text * 4)
        judged = [PROGRAM, log, "--key", "client", "--summary"]
        words = iter(range(100))

        def into() -> list[str]:
            return ["--split", "16", "--key", "client", "--into", f"{folder}/{next(words)}"]

        # (both are measured again, since others may be busy beside one of them alone)
        for _ in range(TRIES):
            _, most = processor_time(lambda: run(judged))
            _, took = processor_time(lambda: run([PROGRAM, log, *into()]), most)
            if took <= most:
                break
        yield "time", None if took <= most else f"{took} s, where an audit takes {most}"
        once, often = (spent([PROGRAM, it, *into()], 600, 1 << 40) for it in (log, longer))
        fault = f"{often.memory} KiB of four logs, {once.memory} of one"
        yield "memory", None if often.memory <= 1.1 * once.memory and not often.status else fault
