"""Small stacks: under the least one that README.md names nothing is killed.

The stack of each thread is as large as `ulimit -s` says, and a text is read by a recursion as deep
as it nests.
"""
from answers import crowd_at_all_limits, do
from audit_logs import PROGRAM as AUDIT
from audit_logs import learnt_log
from command_line import HELP
from harness import DONE, ROOT, Ran, done, fault_of, read, refused, run, script, written
from judge import Lawful
from memory import CROWD, THROTTLES

# So many KiB are enough, and there it is said.
ENOUGH = 256
SAID = (("README.md", "under `ulimit -s` below {}"), ("docs/COSTS.md", "`ulimit -s {}` is enough"))
AGAIN = 3
# A JSON text may nest so deep.
DEEPEST = 127
OBJECT, LIST = ('{"":', "}"), ("[", "]")
SHAPES = {"objects": (OBJECT,), "lists": (LIST,), "objects and lists": (OBJECT, LIST)}
NO_FAULT = Ran(DONE, None, b"")
NO_REPLIES = done(b"audit ok events 0 raised 0 versions 0\n")
# What a large script may take of a crowd: bytes, that is, and the calls of a long log.
CROWD_BYTES, LONG = 4_000_000, 20_000


def nested(shape, depth):
    """A value that nests so deep, in the brackets of a shape in turn."""
    brackets = [shape[at % len(shape)] for at in range(depth)]
    return "".join(it for it, _ in brackets) + "0" + "".join(it for _, it in reversed(brackets))


def deep_scripts():
    """Names scripts that nest as deep as may be, or deeper, and how they end."""
    for name, shape in SHAPES.items():
        inner = {above: nested(shape, DEEPEST - above) for above in (1, 2, 3)}
        yield f"an ignored member of {name}", script(note=inner[1]), NO_REPLIES
        overwritten = script(rounds=f'{inner[1]},"rounds":[]')
        yield f"a member of {name} that is overwritten", overwritten, NO_REPLIES
        yield f"a command of {name}", script(f"[[{inner[3]}]]"), refused("BadField 0 0")
        yield f"a throttle of {name}", script(throttles=f"[{inner[2]}]"), refused("BadLimit")
        for depth in (DEEPEST + 1, 1_000_000):
            yield f"{depth} {name}", nested(shape, depth), refused("NotJson")
    yield "a number of many digits", script(note=f"0.{'3' * 1_000_000}e-9"), NO_REPLIES


def crowds():
    """Names scripts of many threads, with their arguments, and a call for what is wrong."""
    reads = written([[do("grv", who) for who in range(64)] * 50], clients=64)
    racing = written(CROWD, clients=3, throttles=THROTTLES, room=1)
    for name, given in (
        ("64 clients that read", reads),
        ("three clients that race", racing),
        ("a crowd at all limits", crowd_at_all_limits(CROWD_BYTES)),
    ):
        yield name, ["--proxies", "16", "--history"], given, Lawful(given, 16).fault_of
    yield "help", ["--help"], b"", lambda ran: fault_of(ran, done(HELP))


def logs():
    """Names logs that are long, or go deep."""
    line = '{"client":"a","read":100}\n'
    yield "a long log", line * LONG
    yield "a chain of learns", learnt_log().decode()
    for name, shape in SHAPES.items():
        deep = nested(shape, DEEPEST - 1)
        yield f"a member of {name} in a log", line.replace("}", f',"note":{deep}}}')


def under_stack(words, given, fault_of_ran):
    """Runs a command under the least stack, time and again, and returns what was wrong or None."""
    limited = ["sh", "-c", f'ulimit -s {ENOUGH}; exec "$0" "$@"', *words]
    faults = (fault_of_ran(run(limited, given)) for _ in range(AGAIN))
    return next(filter(None, faults), None)


def small_stacks(program):
    """The documents say how large a stack is enough, and under it each input ends as ever."""
    for document, words in SAID:
        said = words.format(ENOUGH).encode() in read(f"{ROOT}/{document}")
        yield f"{document} says how large a stack is enough", None if said else "it does not"
    for name, text, wanted in deep_scripts():
        given = text.encode()
        yield name, under_stack([program], given, lambda ran, wanted=wanted: fault_of(ran, wanted))
    for name, words, given, fault_of_ran in crowds():
        yield name, under_stack([program, *words], given, fault_of_ran)
    for name, text in logs():
        words, given = [AUDIT, "--history"], text.encode()
        yield name, under_stack(words, given, lambda ran: fault_of(ran, NO_FAULT))
