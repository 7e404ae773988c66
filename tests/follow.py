"""What fdb_audit tells with --follow of logs that grow: in pieces, slowly, out of order, large."""
import json
import os
import queue
import random
import re
import subprocess
import tempfile
import threading
import time

import clusters
from audit_lines import CALLS, MOST_BYTES, refusal
from audit_logs import FAULTY, OK, PROGRAM, REFUSED, worked_cases
from audit_model import TOLD, printed
from audit_search import random_lines, text_of
from audit_streams import MUCH, told_of
from command_line import LINE, TEXTS, WHOLE, audit
from documents import BLOCK
from follow_model import (EARLY_LINE, PROGRESS, SAID_AHEAD, SAID_LAST, WATCHED, Followed, Warned,
                          judged_as, why_wrong, without_progress)
from harness import NO_STREAM, ROOT, SECONDS, Ran, apart, fault_of, read, run, spent
from reader import HIGHEST
from shapes import repeated, text_of_lines, timed

WORKED = f"{ROOT}/tests/follow_worked.txt"
# Documents that show what is said of a log, and how many lines of the one there come at first.
LOG, STATUSES, AT_FIRST = f"{ROOT}/docs/LOG.md", f"{ROOT}/docs/STATUSES.md", 3
# How many random logs, and how many simulated clusters of each kind.
RANDOM, SEEDS = 600, 2
# Seconds between two pieces, how soon a fault is told, and after how many none is told any more.
PAUSE, SOON, NEVER = 0.0015, 1, 100
# How many faults are timed.
TIMED = 9
# The lines of a large log, and the most memory that it may take, in KiB.
LARGE, MOST_MEMORY = 1_000_000, 30_000_000 // 1024
# What is asked for besides, in turn.
ASKED = (["--json"], ["--json"], [], ["--all"], ["--json", "--summary"], ["--summary"])
# Lines that are refused.
NO_LINES = (
    b"", b"{", b"nil", b"[1]", b"{}", b'{"client":"a","read":1}', b'{"client":"a","learn":"a"}',
    b'{"client":"a","learn":"a","began":1,"ended":2}', b'{"read":1,"began":3,"ended":2}',
    b'{"client":"a","read":1,"commit":1,"began":1,"ended":2}', b'{"read":-1,"began":1,"ended":2}',
    b'{"client":null,"read":9,"began":1,"ended":2}', b'{"commit":9,"ended":2}', b"\xff\r",
)
STALE = (timed("commit", 5, 0, 10, "a"), timed("read", 1, 20, 30, "b"))
# A line of another client, by which the end of the stale read is believed.
VOUCHED = timed("read", 5, 29, 30, "a")


def worked(_program):
    """The program tells of a whole log what a hand calculation gives."""
    for name, given, words, out in worked_cases(WORKED):
        wanted = judged_as(given, words)._replace(out=out)
        yield name, fault_of(without_progress(run([PROGRAM, *words], given)), wanted)


def worked_by_model(_program):
    """So does the model."""
    for name, given, words, out in worked_cases(WORKED):
        ran = judged_as(given, words)
        fault = fault_of(ran, ran._replace(out=out))
        yield name, fault or why_wrong(given, words, ran, is_run=False)


# ---- logs that come in pieces


def grown(dice):
    """Lines with times of several random logs, the later ones later and mostly above."""
    lines, now, version = [], dice.choice((0, 0, 0, 2**63, HIGHEST - 2_000)), 0
    for _ in range(dice.randint(1, 12)):
        drawn = random_lines(dice)
        while "began" not in drawn[0]:
            drawn = random_lines(dice)
        for line in drawn:
            kind = next(it for it in CALLS if it in line)
            ended = None if line["ended"] is None else line["ended"] + now
            lines.append({**line, kind: line[kind] + version, "began": line["began"] + now,
                          "ended": ended})
        now, version = now + dice.randint(0, 12), version + dice.choice((0, 0, 1, 4))
    return lines


def disordered(lines, by, dice):
    """Lines in the order of their ends, but for so much."""
    end = lambda line: line["began"] if line["ended"] is None else line["ended"]
    return sorted(lines, key=lambda line: end(line) + dice.randint(0, by))


def behind_ends(lines):
    """How far each line begins behind the newest end above it."""
    newest = 0
    for line in lines:
        yield max(0, newest - line["began"])
        newest = max(newest, line["ended"] or 0)


def random_words(dice):
    """Arguments that only say what is judged and what is printed beside it."""
    words = ["--key", dice.choice(("key", "client"))] if dice.random() < 0.3 else []
    words += ["--show", dice.choice(("note", "none,note"))] * (dice.random() < 0.3)
    return words + ["--margin", str(dice.choice((0, 1, 2, 5)))] * (dice.random() < 0.5)


def with_refused(given, dice):
    """A text with lines in between that are refused, and perhaps half of one at the end."""
    lines = given.splitlines(keepends=True)
    for _ in range(dice.randint(1, 3)):
        lines.insert(dice.randint(0, len(lines) - 1), dice.choice(NO_LINES) + b"\n")
    half = dice.random() < 0.3 and lines[-1].endswith(b"\n")
    return b"".join(lines) + LINE[:dice.randrange(1, len(LINE) - 1)] * half


def fed(words, given, dice):
    """Runs the program on a text that comes in pieces, between which it may settle."""
    cuts = sorted(dice.randint(0, len(given)) for _ in range(dice.randint(0, 4)))
    with tempfile.TemporaryFile() as out, tempfile.TemporaryFile() as err:
        with subprocess.Popen(
            [PROGRAM, *words], bufsize=0, stdin=subprocess.PIPE, stdout=out, stderr=err
        ) as started:
            for at, to in zip([0, *cuts], [*cuts, len(given)]):
                started.stdin.write(given[at:to])
                time.sleep(PAUSE)
        for it in (out, err):
            it.seek(0)
        return Ran(started.returncode, out.read(), err.read())


def random_logs(_program):
    """Of random logs in pieces that is told which the audit of all lines tells, each once.

    Of every fifth log some lines are refused; of every fifth some may begin before what is settled,
    and nothing is told that the audit would not tell.
    """
    for number in range(RANDOM):
        dice, is_spoilt, is_early = random.Random(f"grown {number}"), *(
            number % 5 == it for it in (3, 4))
        lines = disordered(grown(dice), 30 if is_early else dice.choice((0, 0, 2, 10)), dice)
        most = max(behind_ends(lines))
        behind = dice.choice((most, most, most + 1, 2 * most + 3, HIGHEST // 2))
        behind = dice.randint(0, most // 2) if is_early else behind
        words = [*random_words(dice), *ASKED[number % (4 if is_early else 6)]]
        words += ["--follow", str(behind)]
        given = text_of(lines, dice)
        given = with_refused(given, dice) if is_spoilt else given
        ran = fed(words, given, dice)
        fault = why_wrong(given, words, ran, sum(it > behind for it in behind_ends(lines)))
        if not is_spoilt and not is_early and "--json" in words and "--summary" not in words:
            fault = fault or beside_audit(given, words, ran)
        yield f"log {number}", fault and f"{fault}, of {given} with {words}"


def clustered(_program):
    """So it is of simulated clusters, with stale reads and without."""
    for kind, setting in clusters.KINDS.items():
        for seed, made in enumerate((clusters.with_stale_reads, clusters.simulated) * SEEDS):
            dice = random.Random(f"{kind} {seed}")
            lines = disordered(made(seed, setting)[0], 1_000, dice)
            words = ["--margin", str(clusters.margin_of(setting)), "--json",
                     "--follow", str(max(behind_ends(lines)))]
            given = text_of(lines)
            ran = fed(words, given, dice)
            fault = why_wrong(given, words, ran) or beside_audit(given, words, ran)
            yield f"{kind}, seed {seed}", fault


def beside_audit(given, words, ran):
    """How the faults and groups differ from those that the audit of all lines tells, or None."""
    at = words.index("--follow")
    audited = run([PROGRAM, *words[:at], *words[at + 2:]], given)
    (told, totals), (known, all_totals) = map(objects_of, (ran.out, audited.out))
    watched = [it for it in known if it["fault"] in WATCHED]
    told, wanted = (sorted(printed([it["fault"], it["at"]]) for it in its)
                    for its in (told, watched))
    if told != wanted:
        return f"it tells {told}, and the audit {wanted}"
    # (groups with as many faults may stand in another order)
    totals, all_totals = (sorted(map(printed, its[1:])) for its in (totals, all_totals))
    is_same = len(watched) < len(known) or totals == all_totals
    return None if is_same else f"{totals} in place of {all_totals}"


def objects_of(out):
    """The objects of faults, and the others, but for how far a log was followed."""
    objects = [it for it in map(json.loads, out.splitlines()) if "watched" not in it]
    is_fault = lambda it: type(it.get("fault")) is str
    return list(filter(is_fault, objects)), [it for it in objects if not is_fault(it)]


# ---- while the log grows


class Growing:
    """The program while its log grows."""

    def __init__(self, *words, out=subprocess.PIPE):
        self.started = subprocess.Popen([PROGRAM, *words], bufsize=0, stdin=subprocess.PIPE,
                                        stdout=out, stderr=subprocess.PIPE)
        self.said, self.given, self.out = queue.Queue(), b"", b""
        self.listener = threading.Thread(target=self.listen, daemon=True)
        self.listener.start()

    def listen(self):
        for line in self.started.stdout or ():
            self.said.put(line)
        self.said.put(b"")

    def write(self, *lines):
        text = text_of_lines(lines).encode()
        self.given += text
        self.started.stdin.write(text)

    def told(self):
        """The next line that it tells, or nothing where none comes in time, or any more."""
        try:
            line = self.said.get(timeout=NEVER)
        except queue.Empty:
            line = b""
        self.out += line
        return line

    def told_fault(self):
        """The next that is not how far the log was followed."""
        line = self.told()
        while line.startswith(PROGRESS):
            line = self.told()
        return line

    def end(self):
        """How it ends once the log ends, or where it ends by itself, and all that it told."""
        try:
            self.started.wait(SECONDS)
        except subprocess.TimeoutExpired:
            self.started.kill()
        self.listener.join()
        self.out += b"".join(self.said.get() for _ in range(self.said.qsize()))
        return Ran(self.started.wait(), self.out, self.started.stderr.read())

    def __enter__(self):
        return self

    def __exit__(self, *_):
        self.started.kill()
        self.started.wait()


def told_soon(_program):
    """A fault is told as soon as no line that comes can change it, while the log goes on."""
    words, waits = ["--follow", "5", "--json"], []
    with Growing(*words) as growing:
        growing.write(timed("commit", 9, 0, 1, "a"))
        for at in range(TIMED):
            # It ends more than 5 after it began, so nothing that comes began before, once another
            # client's line has ended then too.
            growing.write(timed("read", at, 10 * at + 10, 10 * at + 16, "b"),
                          timed("read", 9, 10 * at + 15, 10 * at + 16, "a"))
            begun = time.monotonic()
            wanted = b'{"fault":"Order","at":{"line":%d,' % (2 * at + 2)
            yield f"fault {at}", began_with(growing.told_fault(), wanted)
            waits.append(time.monotonic() - begun)
        growing.started.stdin.close()
        yield "what is told", why_wrong(growing.given, words, growing.end())
    # A busy machine holds up some. What tells by a clock, or by what comes next, holds up each; the
    # first may meet the clock.
    yield "one within a second", None if min(waits[1:]) < SOON else f"they took {waits}"


def too_early(_program):
    """A line that begins before what was settled is counted; it is judged, if not too late."""
    words = ["--follow", "5"]
    with Growing(*words) as growing:
        growing.write(*STALE, timed("commit", 6, 90, 110, "c"), timed("read", 6, 100, 110, "a"))
        yield "settled up to 105", began_with(growing.told(), b"audit fault: Order 2: ")
        growing.write(timed("read", 2, 101, 102, "d"))
        yield "4 before, and judged", began_with(growing.told(), b"audit fault: Order 5: ")
        # One is not judged, and nothing of it is told; one is known to others.
        growing.write(timed("read", 3, 50, 60, "e"), timed("commit", 9, 40, 41, "f"),
                      timed("read", 8, 120, 130, "g"), timed("read", 9, 125, 130, "a"))
        last = growing.told()
        yield "55 and 65 before", began_with(last, b"audit fault: Order 8: ")
        case, *it = Followed(growing.given, words).told["Order", 8]
        yield "for a true reason", None if last.decode()[:-1] in case.texts(*it) else f"{last}"
        growing.started.stdin.close()
        # The lines of a and c end behind those that came early, by more than 5.
        warned = warned_of(Warned(5, 4, 1), Warned(5, 8, 1, SAID_AHEAD), Warned(6, 55, 2))
        wanted = Ran(FAULTY, growing.out, warned + b"fdb_audit: audit fault: Order 2\n")
        yield "nothing more is told", fault_of(growing.end(), wanted)
    with Growing("--all", *words) as growing:
        growing.write(*STALE, VOUCHED)
        growing.told()
        growing.write(timed("read", 5, 25, 40, "a"), timed("read", 5, 24, 25, "a"))
        growing.started.stdin.close()
        total = (b"audit total lines 5 reads 4 commits 1 asks 0 reports 0 refused 0 early 1 "
                 b"judged 1\n")
        yield "one is counted", began_with(growing.end().out.partition(b"\n")[2], total)
    yield from unjudged_is_not_ok()


def shown(_program):
    """Of the lines that docs/LOG.md shows as early it is told what stands there."""
    given, warning = log_shown()
    lines = given.encode().splitlines(keepends=True)
    pieces = [b"".join(lines[:AT_FIRST]), b"".join(lines[AT_FIRST:])]
    words = ["--follow", "5", "--all"]
    ran = apart([PROGRAM, *words], pieces)
    yield "by the model", why_wrong(given.encode(), words, ran, 2)
    yield "what is warned", began_with(ran.err, warning.encode())
    told = re.findall(rb"^audit (?:fault: \w+ \d+|total lines .*)", ran.out, re.MULTILINE)
    wanted = [b"audit fault: Order 4", b"audit total lines 6 reads 4 commits 2 asks 0 reports 0 "
              b"refused 0 early 2 judged 1"]
    yield "what is told", None if told == wanted else f"{told}"


def log_shown():
    """The log of docs/LOG.md of which lines come early, and what it says of the first."""
    blocks = [block for _, block in BLOCK.findall(read(LOG).decode())]
    at = next(at for at, it in enumerate(blocks) if EARLY_LINE.fullmatch(it.rstrip("\n")))
    return next(it for it in reversed(blocks[:at]) if it.startswith("{")), blocks[at]


def said_in_documents(_program):
    """What documents show of standard error is so said."""
    warnings = EARLY_LINE, re.compile("fdb_audit: " + SAID_AHEAD.replace("{}", r"\d+"))
    blocks = [block for _, block in BLOCK.findall(read(LOG).decode())]
    for it in (it.rstrip("\n") for it in blocks if it.startswith("fdb_audit: ")):
        is_so = any(one.fullmatch(it) for one in warnings)
        yield it, None if is_so else "it is no warning"
    for it in (f"logs refused: {refusal(7, 'NotJson')}", "audit fault: Order 2"):
        is_so = f"`fdb_audit: {it}`" in read(STATUSES).decode()
        yield it, None if is_so else "docs/STATUSES.md does not say so"


def unjudged_is_not_ok():
    """Where a line came early, it is not said that the audit is ok."""
    words = ["--follow", "5"]
    for lines, warned, counts in (
            # Two clocks that are in another unit: all that comes later is early.
            ([timed("read", 0, 1, 7_000_000, "a"), timed("read", 0, 2, 7_000_000, "c"), *(
                timed("read", 0, at, at, "b") for at in range(10, 17))],
             [Warned(3, 6_999_985, 1), Warned(3, 6_999_990, 1, SAID_AHEAD),
              Warned(4, 6_999_984, 2), Warned(6, 6_999_982, 4)],
             "lines 9 reads 9 commits 0 asks 0 reports 0 refused 0 early 7 judged 0 ahead 1"),
            # It is judged, since it began at most 5 before what was settled.
            ([timed("read", 0, 90, 110, "a"), timed("read", 0, 90, 110, "c"),
              timed("read", 0, 100, 105, "b")],
             [Warned(3, 5, 1)],
             "lines 3 reads 3 commits 0 asks 0 reports 0 refused 0 early 1 judged 1")):
        pieces = [text_of_lines(it).encode() for it in (lines[:2], lines[2:])]
        err = warned_of(*warned, SAID_LAST.format(len(lines)))
        wanted = Ran(REFUSED, f"audit early {counts}\n".encode(), err)
        yield f"{len(lines) - 2} early lines", fault_of(apart([PROGRAM, *words], pieces), wanted)


def warned_of(*warned):
    """What is said on standard error of early lines."""
    return "".join(f"fdb_audit: {it}\n" for it in warned).encode()


def began_with(out, wanted):
    return None if out.startswith(wanted) else f"{out} in place of {wanted}"


# ---- what ends it


def no_output(_program):
    """Where its output is closed it ends at once, while its log goes on; and so with no fault."""
    failed = Ran(NO_STREAM, b"", b"fdb_audit: writing failed\n")
    reader, writer = os.pipe()
    os.close(reader)
    with open("/dev/full", "wb") as full:
        for name, out in (("nobody reads it", writer), ("it is full", full)):
            with Growing("--follow", "0", out=out) as growing:
                growing.write(*STALE, VOUCHED)
                yield f"a fault, and {name}", fault_of(growing.end(), failed)
            ran = run([PROGRAM, "--follow", "0"], LINE, stdout=out)
            yield f"no fault, and {name}", fault_of(ran, failed)
    os.close(writer)


def unfit(_program):
    """Words that are refused beside it, and logs of which lines are refused, or all."""
    wanted = audit(None).words_refused()
    for words in (["--complete", "0"], ["--history"], ["--complete=1", "--history", "--json"]):
        for all_words in ([*words, "--follow", "5"], ["--follow=5", *words]):
            yield f"the arguments {all_words}", fault_of(run([PROGRAM, *all_words], LINE), wanted)
    long, stale = b"x" * (MOST_BYTES + 1), text_of_lines(STALE).encode()
    for name, given in (
        ("no byte", b""), ("one line feed", b"\n"), ("no JSON", b"{\n"), ("half a line", LINE[:9]),
        ("a line that is too long", long), ("a long one below a line", LINE + long + b"\n"),
        ("two long ones, and a fault", long + b"\n" + stale + long),
        ("each refused line", stale + b"\n".join(NO_LINES)),
        ("no times", b'{"client":"b","read":1}\n' + LINE),
    ):
        for words in (["--follow", "0"], ["--json", "--follow", "9"], ["--follow=3", "--summary"]):
            yield f"{name}, {words}", why_wrong(given, words, run([PROGRAM, *words], given))


def watch(path):
    """The program with what may be asked for beside --follow."""
    return audit(path)._replace(
        flags=("--all", "--summary", "--json", "--progress"),
        numbers={"--follow": WHOLE, "--margin": WHOLE, "--key": TEXTS}, ends=judged_as,
        seen=without_progress,
    )


def of_own_clients(count):
    """Commits, each of a client of its own."""
    for at in range(count):
        began = 9 * at
        yield f'{{"client":"{at}","commit":{at + 1},"began":{began},"ended":{began + 5}}}\n'


def of_own_keys(count):
    """Commits of two clients in turn, each of a key of its own."""
    for at in range(count):
        began, client = 9 * at, "ab"[at % 2]
        yield (f'{{"client":"{client}","key":"{at}","commit":1,"began":{began},'
               f'"ended":{began + 5}}}\n')


def large(_program):
    """A large log takes no more memory than a small one, and it is told how far it is read."""
    forgets = ("--key", "key", "--forget", "20000")
    for name, lines, words in (
        ("lines", repeated(LARGE), ()), ("clients", of_own_clients(LARGE), ()),
        ("keys", of_own_keys(LARGE), forgets),
    ):
        with tempfile.TemporaryDirectory() as folder:
            log = f"{folder}/log"
            with open(log, "w", encoding="ascii") as file:
                file.writelines(lines)
            it = spent([PROGRAM, "--follow", "2000", *words, log], 60, 2**30)
            is_so = it.status == OK and it.memory <= MOST_MEMORY
            fault = f"{it}, where {MOST_MEMORY} KiB are the most"
            yield f"{LARGE} {name}", None if is_so else fault
    told = "".join(told_of(TOLD, 64, end) for end in ("", "; judging"))
    said = b"audit ok lines 64 reads 64 commits 0 asks 0 reports 0 refused 0 early 0\n"
    ran = without_progress(run([PROGRAM, "--follow", "1", "--progress"], MUCH))
    yield "how far it is read", fault_of(ran, Ran(OK, said, told.encode()))
