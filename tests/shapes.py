"""Logs of 100,000 lines whose shape is the worst for some table: none is slow or large.

Each is measured beside an ordinary log of as many lines: processor time, and memory at its peak.
"""
import json
import random
import tempfile

from audit_logs import PROGRAM
from harness import processor_time, spent

LINES = 100_000
# How many times the time and the memory of an ordinary log, and seconds that are never too many,
# since work for each pair of lines would take a minute: a machine may be slow by chance.
MOST, FEW_SECONDS = 4, 2


def timed(kind, version, began, ended, client=None):
    line = {} if client is None else {"client": client}
    return {**line, kind: version, "began": began, "ended": ended}


def text_of_lines(lines):
    return "".join(json.dumps(line, separators=(",", ":")) + "\n" for line in lines)


def overlapping(draw, count=LINES, names=64):
    """Calls of a register by clients side by side, in the order of their ends: no fault stands."""
    events, free, now = [], [0] * names, 0
    for at in range(count):
        now, client = now + draw.randrange(1, 20), draw.randrange(names)
        began = max(now, free[client])
        free[client] = ended = began + draw.randrange(1, 1_000)
        is_read = draw.random() < 0.7
        call = at, is_read, client, began
        events += [(began, True, *call), (ended, False, *call)]
    drawn, shown, got = 0, 0, {}
    for moment, is_begin, at, is_read, client, began in sorted(events):
        if is_begin:
            drawn += 0 if is_read else draw.randrange(1, 2_000)
            got[at] = shown if is_read else drawn
            continue
        shown = shown if is_read else max(shown, got[at])
        yield timed("read" if is_read else "commit", got[at], began, moment, f"c{client}")


def repeated(count, part=20_000):
    """The text of so many such lines, of which a part comes again and again, later and above."""
    lines = list(overlapping(random.Random(1), part))
    far = max(line["ended"] for line in lines) + 1
    above = max(line.get("commit", 0) for line in lines)
    rows = [(line["client"], *next((it, line[it]) for it in ("read", "commit") if it in line),
             line["began"], line["ended"]) for line in lines]
    for at in range(0, count, part):
        by, up = at // part * far, at // part * above
        yield "".join(f'{{"client":"{client}","{kind}":{version + up},"began":{began + by},'
                      f'"ended":{ended + by}}}\n'
                      for client, kind, version, began, ended in rows[:count - at])


def any_calls(draw):
    """Calls of any kind, with few versions and times: most lines have faults."""
    for at in range(LINES):
        kind, began = draw.choice(("read", "commit", "ask", "report")), draw.randrange(LINES)
        yield timed(kind, draw.randrange(LINES), began, began + draw.randrange(100), f"c{at % 64}")


def told(calls):
    """Lines without times: a client learns from another, or where that has no line commits."""
    known = set()
    for at, (client, teller) in enumerate(calls):
        call = {"learn": f"c{teller}"} if teller in known else {"commit": at + 1}
        known.add(client)
        yield {"client": f"c{client}", **call}


def talk(draw):
    """The same of few clients, who call and learn in turn: most lines have faults."""
    kinds = ("read", "commit", "ask", "report", "learn", "learn")
    for at in range(LINES):
        kind = draw.choice(kinds) if at > 9 else "read"
        value = f"c{draw.randrange(9)}" if kind == "learn" else draw.randrange(at + 1)
        yield {"client": f"c{draw.randrange(9) if at > 9 else at}", kind: value}


def relay(at):
    return at, at - 1


def hub(at):
    return (at // 2, LINES) if at % 2 else (LINES, at // 2 - 1)


def shapes():
    """By name: the arguments, and the lines."""
    draw, places, several = random.Random(7), range(LINES), lambda at: f"c{at % 64}"
    yield "one client", [], [timed("read", 0, at, at + 1, "a") for at in places]
    yield "a client for each line", [], [timed("commit", at + 1, at, at, f"c{at}") for at in places]
    yield "nobody's calls", [], [timed("commit", at + 1, at, at) for at in places]
    yield "one version", [], [timed("read", 1, at, at + 9, several(at)) for at in places]
    yield "commits of one version", [], [timed("commit", 1, 0, 9, several(at)) for at in places]
    yield "asks and reports of one version", ["--all"], [
        timed("ask" if at % 2 else "report", 1, 0, 9, several(at)) for at in places]
    yield "equal times", [], [timed("read", at, 5, 5, several(at)) for at in places]
    yield "equal times of one client", ["--all"], [
        timed("read", LINES - at, 5, 5, "a") for at in places]
    yield "unknown ends", [], [timed("report", at + 1, at, None, several(at)) for at in places]
    yield "calls in calls", [], [timed("read", 0, at, 2 * LINES - at, several(at)) for at in places]
    yield "newest first", ["--all"], [
        timed("commit", LINES - at, 2 * at, 2 * at + 1, several(at)) for at in places]
    yield "asks alone", [], [timed("ask", at + 1, 2 * at, 2 * at + 1, several(at)) for at in places]
    yield "a fault in each line", ["--all"], list(any_calls(draw))
    for margin in (1, 999, 10**6, 2**63 - 1):
        yield f"a margin of {margin}", ["--margin", str(margin)], list(overlapping(draw))
    yield "a history", ["--history"], list(overlapping(draw))
    for member in ("client", "began", "none"):
        yield f"keys by {member}", ["--key", member, "--history"], list(overlapping(draw))
    yield "faults of each key", ["--key", "client", "--summary"], list(any_calls(draw))
    yield "all calls of a log", ["--complete", "0", "--all", "--history"], list(overlapping(draw))
    yield "a relay", [], list(told(map(relay, places)))
    yield "a hub", [], list(told(map(hub, places)))
    some = lambda: (draw.randrange(8_000), draw.randrange(8_000))
    yield "gossip", ["--all"], list(told(some() for _ in places))
    yield "talk of few", ["--all"], list(talk(draw))
    # Two take turns: each learns what the other had learnt of it.
    yield "deep learning", ["--history"], list(told((at % 2, 1 - at % 2) for at in places))


def audited(arguments, lines, folder, most=0):
    """What an audit of these lines takes, and processor time: the least of a few audits, or of
    those up to one that takes at most so much."""
    log = f"{folder}/log"
    with open(log, "w", encoding="utf-8") as file:
        file.write(text_of_lines(lines))
    return processor_time(lambda: spent([PROGRAM, *arguments, log], 10, 2**30), most)


def no_shape_is_slow(_program):
    """Each takes at most a few times the time and the memory of an ordinary log of its size."""
    with tempfile.TemporaryDirectory() as folder:
        usual, seconds = audited([], list(overlapping(random.Random(1))), folder)
        most = max(MOST * seconds, FEW_SECONDS)
        for name, arguments, lines in shapes():
            it, took = audited(arguments, lines, folder, most)
            said = f"{took:.2f} s, {it} beside {seconds:.2f} s and {usual} of an ordinary log"
            is_so = it.status in (0, 4) and took <= most and it.memory <= MOST * usual.memory
            yield name, None if len(lines) == LINES and is_so else said
