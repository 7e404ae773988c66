"""Keys that a watch forgets with --forget: which, and that what it tells is true of all lines."""
import json
import random
import tempfile

from audit_logs import FAULTY, OK, PROGRAM
from command_line import LINE, audit
from follow import objects_of
from follow_model import WATCHED
from harness import fault_of, run

# How far a call may begin behind the newest end, and after how long a key is forgotten.
BEHIND, AFTER = 40, 3_000
# So many lines of other keys, and old keys are forgotten: twice, a look for them comes meanwhile.
OTHERS = 12_000
# How many random logs, of how many lines and keys.
RANDOM, LINES, KEYS = 3, 16_000, 2_000
WORDS = ["--follow", str(BEHIND), "--key", "key", "--json"]
FORGETS = [*WORDS, "--forget", str(AFTER)]


def call(client, began, key=None, **does):
    """A line of a log."""
    of_key = {} if key is None else {"key": key}
    return {"client": client, **of_key, **does, "began": began, "ended": began + 5}


def others(began, count=OTHERS):
    """Commits of two clients in turn, each of a key of its own."""
    for at in range(count):
        yield call("ab"[at % 2], began + 9 * at, f"other {began} {at}", commit=1)


def text_of(lines):
    """A log as text."""
    return "".join(f"{json.dumps(line)}\n" for line in lines).encode()


def lines_of(out):
    """The kind and line of each fault that a watch may tell."""
    its = objects_of(out)[0]
    return {(it["fault"], it["at"]["line"]) for it in its if it["fault"] in WATCHED}


def told(words, lines):
    """Which faults are told, by kind and line, and the status."""
    ran = run([PROGRAM, *words], text_of(lines))
    return lines_of(ran.out), ran.status


def known(key, quiet=()):
    """A version of a key, lines of others, and of it at these places, and a stale read of it."""
    behind = list(others(100))
    for at in quiet:
        behind.insert(at, call("b", behind[at]["began"], key, read=100))
    last = behind[-1]["ended"]
    return [call("a", 0, key, commit=100), *behind, call("b", last + 10, key, read=50)]


def forgotten(_program):
    """A key is forgotten of which no line came for long, and no other is."""
    often = range(0, OTHERS, AFTER // 9 - 20)
    again = [*known("k"), call("a", 9 * OTHERS + 200, "k", commit=200),
             call("b", 9 * OTHERS + 300, "k", read=150)]
    for name, lines, words, wanted in (
        ("an old key, which is not forgotten", known("k"), WORDS, {OTHERS + 2}),
        ("one that is", known("k"), FORGETS, set()),
        ("one that is not so old", known("k"), [*WORDS, "--forget", "1000000"], {OTHERS + 2}),
        ("one that has lines", known("k", often), FORGETS, {OTHERS + len(often) + 2}),
        ("lines without a key", known(None), FORGETS, {OTHERS + 2}),
        ("one that comes again", again, FORGETS, {OTHERS + 4}),
    ):
        faults, status = told(words, lines)
        is_so = {at for _, at in faults} == wanted and status == (FAULTY if wanted else OK)
        yield name, None if is_so else f"status {status}, {faults} where {wanted} are told"


def gone_on(_program):
    """A key that is kept in a file counts as if a line of it had just come."""
    lines = known("k")
    for name, words in (("with", FORGETS), ("without", WORDS)):
        with tempfile.TemporaryDirectory() as folder:
            all_words = [*words, "--keep", f"{folder}/kept"]
            # (lines that settle the read, which would be kept, and not told)
            parts = lines[:AFTER // 18], [*lines[-100:], *others(9 * OTHERS + 1_000, 20)]
            first, second = (run([PROGRAM, *all_words], text_of(it)) for it in parts)
            faults = {at for _, at in lines_of(second.out)}
            is_so = first.status == OK and faults == {len(parts[0]) + 100}
            yield f"{name} forgetting, behind a stop", None if is_so else f"{first}, {second}"
            other = run([PROGRAM, *WORDS, "--forget", "7", "--keep", f"{folder}/kept"], LINE)
            made_by = b"--forget 3000" in other.err
            is_so = b"NotKept 1" in other.err and made_by == (words is FORGETS)
            yield f"other arguments than {name}", None if is_so else str(other)


def drawn(dice):
    """A random log of many keys, each with lines in a while or two, and which had none for long."""
    long = (200, 2_000, 9_000, 40_000)
    spans = [(dice.randrange(9 * LINES), dice.choice(long)) for _ in range(KEYS)]
    lines, last, gaps = [], {}, set()
    for at in range(LINES):
        now = 9 * at
        open_keys = [key for key in dice.sample(range(KEYS), 60)
                     if spans[key][0] <= now < spans[key][0] + spans[key][1]]
        key = dice.choice(open_keys) if open_keys else KEYS + at
        if now - last.get(key, now) > AFTER:
            gaps.add(key)
        last[key] = now
        version = dice.randrange(1, 2 + now // 9)
        kind = dice.choice(("commit", "read", "read"))
        lines.append(call(f"c{dice.randrange(5)}", now, f"key {key}", **{kind: version}))
    return lines, {f"key {key}" for key in gaps}


def random_logs(_program):
    """What is told is true of all lines, and all is told of the keys that had lines all along."""
    for seed in range(RANDOM):
        lines, gaps = drawn(random.Random(seed))
        by_all = lines_of(run([PROGRAM, "--key", "key", "--json"], text_of(lines)).out)
        faults, _ = told(FORGETS, lines)
        due = {it for it in by_all if lines[it[1] - 1]["key"] not in gaps}
        fault = None
        if not due <= faults <= by_all:
            fault = f"missing {sorted(due - faults)[:3]}, untrue {sorted(faults - by_all)[:3]}"
        elif not by_all - faults:
            fault = "nothing was forgotten"
        yield f"a random log {seed}", fault


def unfit(_program):
    """It suits --follow with --key alone."""
    refused = audit(None).words_refused()
    for words in (
        ["--forget", "5"], ["--forget", "5", "--key", "key"], ["--forget=5", "--follow=5"],
        ["--follow", "5", "--key", "key", "--forget", "-1"],
    ):
        yield f"the arguments {words}", fault_of(run([PROGRAM, *words], LINE), refused)
