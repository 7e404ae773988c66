"""What fdb_audit says of logs: worked by hand, random, simulated, refused, and large."""
import os
import random
import re
from collections import Counter

import clusters
from audit_lines import MOST_BYTES, lines_of, refusal
from audit_model import MOST, Log, judged, options_of
from audit_right import why_wrong
from audit_search import fault_of_search, random_lines, random_words, text_of
from harness import EXAMPLES, ROOT, Ran, fault_of, processor_time, read, run
from judging import changed
from model import text_of as text_of_lines
from reader import DEEPEST

PROGRAM = f"{ROOT}/crates/fdb_audit_cli/out/fdb_audit_cli"
LOGS = f"{EXAMPLES}/logs"
OK, REFUSED, FAULTY = 0, 1, 4
# The first fault, and how many there are, in sentences and in JSON.
FAULT = re.compile(rb'audit fault: (\w+ \d+): |\{"fault":"(\w+)","at":\{"line":(\d+),')
FAULTS = re.compile(rb'^(?:audit total faults |\{"faults":)[1-9]', re.MULTILINE)
# How many random logs there are, and how many simulated clusters of each kind.
# The model looks at what is said of the first few of these.
RANDOM, SEEDS, LOOKED_AT = 3_000, 20, 2
# How many long random logs, and how many of the others stand one after the other in each.
LONG, JOINED = 60, 20
# What is asked for besides, in turn.
ASKED = (
    [], ["--all", "--history"], ["--history"], ["--all"], ["--json", "--history"], ["--summary"],
    ["--json"], ["--summary", "--json"], ["--all", "--json", "--summary", "--history"],
)
# Lines of two calls, with times and without.
TIMED = b'{"client":"a","read":1,"began":1,"ended":2}\n'
UNTIMED = b'{"client":"a","read":1}\n'
# The processor time that a log of 20 MB may take in seconds: some ten times what it does.
LARGE, LARGE_SECONDS, CLIENTS = 250_000, 20, 1_000


def judged_as(given, words):
    return Ran(*judged(given, options_of(words)))


# ---- worked by hand


def worked_cases(file=f"{ROOT}/tests/audit_worked.txt"):
    """The cases of a file: a name, the log, the arguments, and what is printed.

    There, a line `# NAME` stands before a log, a line `=> ARGUMENTS` parts it from what is printed.
    """
    for case in read(file).decode().split("\n# "):
        name, _, rest = case.removeprefix("# ").partition("\n")
        given, _, rest = f"\n{rest}".partition("\n=>")
        words, _, out = rest.partition("\n")
        given, out = given.removeprefix("\n"), out.rstrip("\n") + "\n"
        yield name, f"{given}\n".encode(), words.split(), out.encode()


def ended_with(out):
    """How the program ends where it writes this. Totals alone do not tell the first fault."""
    first = FAULT.match(out)
    if first:
        fault = b" ".join(filter(None, first.groups()))
        return Ran(FAULTY, out, b"fdb_audit: audit fault: " + fault + b"\n")
    return Ran(FAULTY, out, None) if FAULTS.search(out) else Ran(OK, out, b"")


def worked(_program):
    """The program writes what a hand calculation gives."""
    for name, given, words, out in worked_cases():
        yield name, fault_of(run([PROGRAM, *words], given), ended_with(out))


def worked_by_model(_program):
    """So does the model, which has just one sentence for each of those faults."""
    for name, given, words, out in [*worked_cases(), *example_cases()]:
        ran = judged_as(given, words)
        yield name, fault_of(ran, ended_with(out)) or why_wrong(given, words, ran)
        log = Log(lines_of(given, options_of(words).key), options_of(words))
        several = [it for case, *it in log.faults() if len(set(case.texts(*it))) > 1]
        yield f"{name}, sentences", f"more than one for {several}" if several else None


def wrong_verdicts(_program):
    """What is written is refused with a line, a number or a word changed, left out or added."""
    for name, given, words, out in worked_cases():
        right = judged_as(given, words)._replace(out=out)
        texts = (text_of_lines(it) for it in changed(out.decode().splitlines()))
        is_taken = lambda it: not why_wrong(given, words, right._replace(out=it))
        taken = next(filter(is_taken, texts), None)
        yield name, taken and f"{taken} is not refused"
        others = {OK, REFUSED, FAULTY, 2, 3, 5} - {right.status}
        taken = [it for it in others if not why_wrong(given, words, right._replace(status=it))]
        yield f"{name}, status", f"{taken} are not refused" if taken else None


def example_cases():
    """The logs of examples/logs: NAME.jsonl prints NAME.out, with the arguments of NAME.args."""
    for name in sorted(os.listdir(LOGS)):
        log, ending = os.path.splitext(f"{LOGS}/{name}")
        if ending == ".jsonl":
            words = read(f"{log}.args").decode().split() if os.path.isfile(f"{log}.args") else []
            yield name, read(f"{log}.jsonl"), words, read(f"{log}.out")


def examples(_program):
    """The program writes the outputs of the examples."""
    for name, given, words, out in example_cases():
        yield name, fault_of(run([PROGRAM, *words], given), ended_with(out))


# ---- random logs


def random_cases(count):
    """Names random logs with their bytes, and arguments."""
    for number in range(count):
        dice = random.Random(number)
        lines, words = random_lines(dice), random_words(dice)
        yield f"log {number}", text_of(lines, dice), words


def searched(_program):
    """The model finds no fault just where a search finds an order; of that order it says one."""
    for number, (name, given, words) in enumerate(random_cases(RANDOM)):
        asked = [*words, *ASKED[number % len(ASKED)]]
        fault = fault_of_search(given, options_of(words))
        fault = fault or why_wrong(given, asked, judged_as(given, asked))
        yield name, fault and f"{fault}, of {given} with {words}"


def random_logs(_program):
    """Random logs are judged as by the model: all faults, the first, or an order."""
    for number, (name, given, words) in enumerate(random_cases(RANDOM)):
        asked = [*words, *ASKED[number % len(ASKED)]]
        fault = why_wrong(given, asked, run([PROGRAM, *asked], given))
        yield name, fault and f"{fault}, of {given} with {asked}"


def long_logs(_program):
    """So are longer ones, most with more faults of one kind than are looked up line by line.

    Every other one has more clients and keys with faults than are told.
    """
    for number in range(LONG):
        dice = random.Random(f"long {number}")
        drawn = [random_lines(dice) for _ in range(3 * JOINED)]
        alike = [it for it in drawn if ("began" in it[0]) == ("began" in drawn[0][0])]
        joined = [apart(it, at) if number % 2 else it for at, it in enumerate(alike[:JOINED])]
        given = text_of([line for lines in joined for line in lines])
        asked = [*random_words(dice), "--all", *["--json"] * (number % 4 > 1)]
        fault = why_wrong(given, asked, run([PROGRAM, *asked], given))
        yield f"log {number}", fault and f"{fault}, of {given} with {asked}"


def apart(lines, at):
    """The same lines, with clients and keys of their own."""
    return [{name: f"{it} {at}" if name in ("client", "learn", "key") else it
             for name, it in line.items()} for line in lines]


# ---- simulated clusters


def clustered(_program):
    """No log of a simulated cluster has a fault, and where all is logged stale reads are found."""
    for kind, setting in clusters.KINDS.items():
        words = ["--margin", str(clusters.margin_of(setting))]
        for seed in range(SEEDS):
            lines, _register = clusters.simulated(seed, setting)
            ran = run([PROGRAM, *words, "--history"], text_of(lines))
            fault = None if ran.status == OK else f"it says {ran.out[:200]}"
            if seed < LOOKED_AT:
                fault = fault or why_wrong(text_of(lines), [*words, "--history"], ran)
            yield f"{kind}, seed {seed}", fault
        for seed in range(LOOKED_AT):
            lines, stale = clusters.with_stale_reads(seed, setting)
            ran = run([PROGRAM, *words, "--all"], text_of(lines))
            fault = why_wrong(text_of(lines), [*words, "--all"], ran)
            yield f"{kind} with stale reads, seed {seed}", fault or missed(setting, ran, stale)


def missed(setting, ran, stale):
    """What is wrong where stale reads of clients that log all their calls are not found."""
    found = [int(it.split(b":")[1].split()[-1]) - 1 for it in ran.out.splitlines()
             if it.startswith(b"audit fault: Order")]
    unfound = sorted(set(stale) - set(found)) if setting == clusters.Setting() else []
    return f"no fault at {unfound}, of {stale}" if unfound else None


# ---- refused


def line_with(**members):
    """A line of a read with times, from the JSON text of each member; None leaves one out."""
    said = {"client": '"a"', "read": "1", "began": "1", "ended": "2", **members}
    texts = [f'"{name}":{text}' for name, text in said.items() if text is not None]
    return ("{" + ",".join(texts) + "}").encode()


def without_times(**members):
    return line_with(**{"began": None, "ended": None, **members})


NO_NUMBERS = ('"1a"', '"+1"', '"-1"', '" 1"', '"1.0"', '"\u0661"', '"18446744073709551616"',
              "-1", "-0", "1.0", "1e3", "true", "null", "[]", "18446744073709551616")
# A line, and why it is refused: alone, below lines with times, or below lines without.
LINES = (
    *((it, "NotJson") for it in (
        b"", b" \t", b"\r", b"{", b"{} {}", b'{"client":"a","read":1,}', b"nil", b"NaN",
        b'{"client":"\xff","read":1}', b'{"client":"\\ud83d","read":1}',
        b'\xef\xbb\xbf{"client":"a","read":1}', b'{"client":"a","read":01}',
        b'{"client":"a","read":1e999}', b'{"client":"\x01","read":1}',
        b"[" * (DEEPEST + 1) + b"]" * (DEEPEST + 1),
    )),
    (b"x" * (MOST_BYTES + 1), "TooLong"),
    *((it, "NoCall") for it in (
        b"[" * DEEPEST + b"]" * DEEPEST, b'["client","a","read",1]', b'"read"', b"null", b"{}",
        line_with(read=None, READ="1"), line_with(read=None, began=None),
    )),
    *((it, "TwoCalls") for it in (
        line_with(commit="1"), line_with(learn="null"), line_with(read='""', ask='""'),
        line_with(commit="1", ask="1", report="1", learn='"a"'),
    )),
    *((line_with(**it), "BadMember client") for it in (
        *({"client": it} for it in NO_NUMBERS if '"' not in it),
        {"client": "null", "read": None}, {"client": "null", "ask": "2"},
    )),
    *((line_with(**{"read": None, kind: it}), f"BadMember {kind}")
      for kind in ("read", "commit", "ask", "report") for it in NO_NUMBERS),
    *((line_with(began=it), "BadMember began") for it in (*NO_NUMBERS, None)),
    *((line_with(ended=it), "BadMember ended") for it in (*NO_NUMBERS, None) if it != "null"),
    (line_with(began=None, ended="null"), "BadMember began"),
    (line_with(began='""', ended='""'), "BadMember began"),
    (line_with(read='""', began='""'), "BadMember read"),
    (line_with(began="3"), "BadMember ended"),
    *((line_with(read=None, learn=it), "BadMember learn")
      for it in ("0", "null", '["a"]', '"nobody"')),
)
BELOW = (
    (UNTIMED, line_with(), "SomeTimes"),
    (TIMED, without_times(), "SomeTimes"),
    (TIMED, without_times(client=None), "SomeTimes"),
    (TIMED, without_times(read=None, learn='"a"'), "SomeTimes"),
    (TIMED, line_with(read=None, learn='"a"'), "BadMember learn"),
    (UNTIMED, without_times(client=None), "BadMember client"),
    (b"", without_times(client=None), "BadMember client"),
    (UNTIMED, without_times(read=None, learn='"b"'), "BadMember learn"),
    (UNTIMED, without_times(client='"b"', read=None, learn='"b"'), "BadMember learn"),
    (UNTIMED, line_with(began="-1"), "BadMember began"),
)
# With keys: a line above, a line, and why it is refused.
KEYED = (
    *((TIMED, line_with(k=it), "BadMember key") for it in NO_NUMBERS if '"' not in it),
    (TIMED, line_with(k="null", began="3"), "BadMember ended"),
    (TIMED, without_times(k="null"), "BadMember key"),
    (TIMED, without_times(k='"null"'), "SomeTimes"),
    (UNTIMED, without_times(k="[]", client=None), "BadMember key"),
    (UNTIMED, without_times(k="[]", read=None, learn='"a"'), "BadMember learn"),
)


def refused_at(number, why):
    """How the program ends where it refuses a line, or a log (0) that has none."""
    return Ran(REFUSED, b"", f"fdb_audit: logs refused: {refusal(number, why)}\n".encode())


def refusals():
    """Names texts that are refused, and how the program ends."""
    for line, why in LINES:
        # Without its end an empty last line is none.
        end, name = b"\n" if not line else b"", f"{line[:90]}"
        yield f"{name}, alone", line + end, refused_at(1, why)
        yield f"{name}, at the end of three", TIMED * 2 + line + end, refused_at(3, why)
        yield f"{name}, above no JSON", TIMED + line + b"\n{\n", refused_at(2, why)
    for above, line, why in BELOW:
        number = 3 if above else 1
        yield f"{line} below {above}", above * 2 + line + b"\n", refused_at(number, why)
    yield "the first of two is named", b"{}\nnull\n[\n", refused_at(1, "NoCall")
    yield "no byte", b"", refused_at(0, "Empty")


def refused(_program):
    """The first line with which something is wrong is refused, for the first of these things."""
    for number, (name, given, wanted) in enumerate(refusals()):
        words = ASKED[number % len(ASKED)]
        yield name, fault_of(run([PROGRAM, *words], given), wanted)
    for above, line, why in KEYED:
        ran = run([PROGRAM, "--key", "k"], above + line + b"\n")
        yield f"{line} below {above}, by key", fault_of(ran, refused_at(2, why))


# ---- large logs


def large_log(count=LARGE):
    """A log of 1,000 clients, of which each 20th line is a stale read, and what is said of it.

    Line N, from 0, began at 10 N and ended 1 later. Each stale read is of 0, right after a commit,
    whose version no other line shows.
    """
    lines, said = [], []
    for at in range(count):
        client, is_read = f"client {at % CLIENTS}", at % 20 == 19
        kind = f'"read":0' if is_read else f'"commit":{at + 1}'
        lines.append(f'{{"client":"{client}",{kind},"note":"{at:09}","began":{10 * at},'
                     f'"ended":{10 * at + 1}}}\n')
        if is_read:
            late, began = 10 * at - 1, f"before line {at + 1} began"
            said.append(
                f'audit fault: Order {at + 1}: client "{client}" read 0, {late} too late: line 1 '
                f'(client "client 0", commit 1) had ended {late} {began}, and {at} was known: line '
                f'{at} (client "client {(at - 1) % CLIENTS}", commit {at}) had ended 9 {began}\n'
            )
    reads = len(said)
    said.append(f"audit total {counted(count, reads)}\n")
    # Whose they are is told of ten: those with most, and of these the first in the log.
    of = Counter(f'client "client {at % CLIENTS}" ' for at in range(19, count, 20))
    for whose, its in [("", reads), *of.most_common(MOST)]:
        said.append(f"audit total {whose}faults {its} Order {its} Wrong 0 NotAbove 0 Twice 0 "
                    "Stray 0\n")
    return "".join(lines).encode(), "".join(said).encode()


def counted(count, reads):
    """How much is judged of such a log."""
    return (f"lines {count} timed {count} reads {reads} commits {count - reads} asks 0 reports 0 "
            f"learns 0 unreported 0 ordered {count * (count - 1) // 2}")


def learnt_log(clients=CLIENTS):
    """A log of 1,000 clients: each commits, and the next learns from it."""
    lines = []
    for at in range(clients):
        lines.append(f'{{"client":"c{at}","commit":{at + 1}}}\n')
        lines.append(f'{{"client":"c{at + 1}","learn":"c{at}"}}\n')
    return "".join(lines).encode()


def large(_program):
    """Large logs are judged in a bounded time, with all their faults."""
    given, said = large_log()
    line = b"fdb_audit: audit fault: Order 20\n"
    yield f"{len(given)} bytes, a fault for each 20 lines", timed(
        [PROGRAM, "--all"], given, Ran(FAULTY, said, line)
    )
    lines = [it for it in given.splitlines(keepends=True) if b'"read"' not in it]
    out = f"audit ok {counted(len(lines), 0)}\n".encode()
    yield "as many without a fault", timed([PROGRAM], b"".join(lines), Ran(OK, out, b""))
    text = learnt_log()
    last = b'{"client":"c%d","read":%d}\n'
    said = (f"audit ok lines {2 * CLIENTS + 1} timed 0 reads 1 commits {CLIENTS} asks 0 reports 0 "
            f"learns {CLIENTS} unreported 0\n")
    yield "a chain of learns", timed(
        [PROGRAM], text + last % (CLIENTS, CLIENTS), Ran(OK, said.encode(), b"")
    )
    fault = (f'audit fault: Order {2 * CLIENTS + 1}: client "c{CLIENTS}" read 0, but {CLIENTS} was '
             f'known: line {2 * CLIENTS} had learnt of line {2 * CLIENTS - 1} (client '
             f'"c{CLIENTS - 1}", commit {CLIENTS})\n')
    yield "a chain of learns, and a stale read", timed(
        [PROGRAM], text + last % (CLIENTS, 0), ended_with(fault.encode())
    )


def timed(words, given, wanted):
    """What is wrong with a run, also where it takes too long."""
    ran, spent = processor_time(lambda: run(words, given), LARGE_SECONDS)
    fault = f"it took {spent:.1f} s" if spent > LARGE_SECONDS else None
    return fault_of(ran, wanted) or fault
