"""Whether the judge judges: it accepts what some order of the calls gives, and nothing else."""
import os
import random
import re
from collections import Counter

import drawn
from harness import EXAMPLES, ROOT, read, written
from judge import fault_of_text, is_determined
from model import Run, in_order, line_of, printed, text_of
from reader import LAST_VERSION, Refused, script_of

SCRIPTS, CROSSED = 100, 60
RAISED = re.compile(r" report \d+ raised pos ")
ACTS = [
    ["ask", "report", "grv"], ["ask", "report", "grv"], ["ask", "reask", "report", "grv", "tell"]
]


# ---- all orders of small scripts


def small_script(dice):
    """Draws a script of 2 or 3 clients with a round or two of a few commands.

    Some of them come to the last versions.
    """
    drawing = drawn.Drawing(dice, dice.choice([2, 2, 3]), dice.choice(ACTS), [1])
    rounds = [
        [drawing.command() for _ in range(size)] for size in dice.choice([[6], [7], [3, 4], [4, 3]])
    ]
    top = {"recovery": dice.choice([1, 100, LAST_VERSION - 6]), "clients": drawing.clients}
    return script_of(written(rounds, **top))


def interleaved(lists):
    """Returns all orders of the calls of some clients, which keep each client's own."""
    if not any(lists):
        return [[]]
    firsts = [(who, calls[0]) for who, calls in enumerate(lists) if calls]
    return [
        [first, *rest]
        for who, first in firsts
        for rest in interleaved([*lists[:who], lists[who][1:], *lists[who + 1 :]])
    ]


def of_clients(script, commands):
    """The commands of a round with their places, by client."""
    placed = in_order(commands)
    return [[one for one in placed if one[1].client == who] for who in range(script.clients)]


def orders(script):
    """Returns all orders of a script's calls, as lists of rounds."""
    found = [[]]
    for commands in script.rounds:
        of_round = interleaved(of_clients(script, commands))
        found = [[*before, order] for before in found for order in of_round]
    return found


def order_at_random(dice, script):
    """Draws one of these."""
    for commands in script.rounds:
        left, order = [it for it in of_clients(script, commands) if it], []
        while left:
            calls = dice.choice(left)
            order.append(calls.pop(0))
            left = [it for it in left if it]
        yield order


def run_in(script, order):
    """Makes a script's calls in this order; returns the run and the lines of the replies."""
    run, lines = Run(script), {}
    for number, calls in enumerate(order):
        told = []
        for place, it in calls:
            lines[number, it.client, place] = line_of(number, place, it, run.called(it))
            if it.do == "tell":
                told.append((it.to, run.logs[it.client].position))
        run.learned(told)
    return run, [line for _, line in sorted(lines.items())]


def lawful_text(seed):
    """The text of a random script by an order at random."""
    dice = random.Random(f"lawful {seed}")
    script = script_of(drawn.lawful(dice).encode())
    run, lines = run_in(script, order_at_random(dice, script))
    return text_of([*lines, run.audit(), *run.history()]).decode()


def crossed(dice, clients, one, other):
    """Returns the lines of what some clients say in one text and the others in another."""
    chosen = {str(who): dice.choice([one, other]) for who in range(clients)}
    return [chosen[line.split()[1]][at] for at, line in enumerate(one)]


def audit_of(lines):
    """Returns the audit's line that goes with these replies."""
    events = sum(" tell " not in line and " pos " in line for line in lines)
    raised = sum(bool(RAISED.search(line)) for line in lines)
    versions = sum(line.endswith(" fresh") for line in lines)
    return f"audit ok events {events} raised {raised} versions {versions}"


def crossed_texts(dice, clients, given):
    """Returns texts put together from what some orders give, by their clients."""
    pairs = [(dice.choice(given), dice.choice(given)) for _ in range(CROSSED)]
    found = [crossed(dice, clients, one, other) for one, other in pairs]
    return {text_of([*lines, audit_of(lines)]) for lines in found}


def errors(script, tried, lawful, history):
    """Returns those of the tried texts about which the judge is wrong."""
    accepts = lambda text: fault_of_text(script, 1, text, history) is None
    return [text for text in sorted(tried) if accepts(text) != (text in lawful)]


def all_orders(_program):
    """Of texts put together from two lawful ones, the judge accepts those that some order gives."""
    verdicts = Counter()
    for seed in range(SCRIPTS):
        dice = random.Random(f"orders {seed}")
        script = small_script(dice)
        runs = [run_in(script, order) for order in orders(script)]
        whole = {text_of([*lines, run.audit(), *run.history()]) for run, lines in runs}
        lawful = {text_of([*lines, run.audit()]) for run, lines in runs}
        given = sorted({tuple(lines) for _, lines in runs})
        tried = lawful | crossed_texts(dice, script.clients, given)
        wrong = errors(script, whole, whole, True) + errors(script, tried, lawful, False)
        verdicts.update(text in lawful for text in tried)
        fault = f"the judge errs about {wrong[0].decode()!r}" if wrong else None
        yield f"seed {seed}, of {len(lawful)} texts", fault
    both = min(verdicts[True], verdicts[False]) > SCRIPTS
    yield "texts of both kinds", None if both else f"{verdicts}"


# ---- queues that are full, by hand


def grv(client, priority="default", **said):
    return {"do": "grv", "client": client, "priority": priority, **said}


def ask(client):
    return {"do": "ask", "client": client, "at": 1000}


def reads(*priorities):
    """A read of each client, of these priorities."""
    return [grv(client, it) for client, it in enumerate(priorities)]


READ, FULL = "100 unlocked none pos 0", "refused Full"
FIRST, SECOND, THIRD = (
    f"prev {prev} version {version} ordinal {ordinal} fresh"
    for ordinal, (prev, version) in enumerate(((0, 100), (100, 101), (101, 102)))
)
THREE, RANKED = reads("default", "default", "default"), reads("system", "batch")
APART = [grv(0), ask(0), ask(1), grv(1)]
LEFT = [grv(0), ask(0), grv(2), ask(2), ask(1), grv(1)]
# Client 1 sees the report that client 0 made behind its read.
SEEN = [grv(0), ask(0), ask(0), {"do": "report", "client": 0, "num": 2}, grv(1), grv(1)]
RAISED_TO = "101 raised pos 1", "101 unlocked none pos 1"
WAITING = [grv(0, "system"), grv(1, "batch", count=11)]
OFTEN, LONG = [grv(0), grv(0), grv(1)], [grv(0), grv(0), grv(1, count=30)]
# A round, further members of the script, the number of proxies, the replies, and whether a
# schedule gives them.
QUEUES = (
    ("two of three find a queue of one full", THREE, {}, 1, [FULL, READ, FULL], True),
    ("nobody finds room", THREE, {}, 1, [FULL, FULL, FULL], False),
    ("one of three finds a queue of two full", THREE, {"room": 2}, 1, [READ, READ, FULL], True),
    ("two of three find that", THREE, {"room": 2}, 1, [FULL, READ, FULL], False),
    ("one finds a queue of three full", THREE, {"room": 3}, 1, [READ, READ, FULL], False),
    ("two through two proxies", THREE[:2], {}, 2, [READ, FULL], False),
    ("three through two proxies", THREE, {}, 2, [READ, READ, FULL], True),
    ("the one between those", THREE, {}, 2, [READ, FULL, READ], False),
    ("a batch read beside one of the system", RANKED, {}, 1, [READ, FULL], True),
    ("a read of the system beside a batch one", RANKED, {}, 1, [FULL, READ], False),
    ("a read of the system beside a default one", reads("system", "default"), {}, 1, [FULL, READ],
     False),
    ("a batch read that may not wait", reads("default", "batch"), {"batch": 0}, 1,
     [READ, FULL], False),
    ("a queue that a read has left", APART, {}, 1, [READ, FIRST, SECOND, FULL], False),
    ("a queue in which it may still wait", APART, {}, 1, [READ, SECOND, FIRST, FULL], True),
    ("a queue that both others have left", LEFT, {}, 1,
     [READ, FIRST, THIRD, FULL, FULL, SECOND], False),
    ("a queue that a read before a report has left", SEEN, {}, 1,
     [READ, FIRST, SECOND, *RAISED_TO, FULL], False),
    ("a read of the system beside one that waits", WAITING, {"normal": 1, "batch": 1}, 1,
     [FULL, READ], False),
    ("full once beside one read", OFTEN, {}, 1, [FULL, READ, READ], True),
    ("full twice beside one that starts at once", OFTEN, {}, 1, [FULL, FULL, READ], False),
    ("full twice beside one that waits", LONG, {"normal": 1}, 1, [FULL, FULL, READ], True),
)


def full_queues(_program):
    """Small races for room in a queue, of which a hand calculation says what is lawful."""
    for name, commands, top, proxies, ends, is_lawful in QUEUES:
        script = script_of(written([commands], **{"clients": 3, "room": 1, **top}))
        calls = in_order(script.rounds[0])
        lines = [line_of(0, place, it, end) for (place, it), end in zip(calls, ends)]
        text = text_of([*lines, audit_of(lines)])
        fault = fault_of_text(script, proxies, text, history=False)
        yield name, None if (fault is None) == is_lawful else fault or "it was accepted"


# ---- texts with a change


# What else may stand in the place of a word.
OTHERS = {
    "fresh": "kept", "kept": "fresh", "locked": "unlocked", "unlocked": "locked",
    "none": "00000000000000000000", "raised": "not raised", "not": "min", "min": "not",
    "Early": "Forgotten", "Forgotten": "NotIssued", "NotIssued": "Forgotten", "Full": "BadCount",
    "BadCount": "BatchThrottled", "BatchThrottled": "Full", "MinAbove": "NotIssued",
}


def worked_scripts():
    """The scripts of examples/ and of worked.txt."""
    for name in sorted(os.listdir(EXAMPLES)):
        if name.endswith(".json"):
            yield name, read(f"{EXAMPLES}/{name}")
    for case in read(f"{ROOT}/tests/worked.txt").decode().split("# ")[1:]:
        name, _, rest = case.partition("\n")
        yield name, rest.partition("\n=>")[0].encode()


def changed(lines):
    """Yields texts with one change: a line or a word less, twice, or another one."""
    for at, line in enumerate(lines):
        before, after = lines[:at], lines[at + 1 :]
        yield before + after
        yield [*before, line, line, *after]
        if after and after[0] != line:
            yield [*before, after[0], line, *after[1:]]
        words = line.split(" ")
        for place, word in enumerate(words):
            others = [OTHERS.get(word, f"{word} {word}"), None]
            others += [str(int(word) + by) for by in (1, -1)] if word.isdecimal() else []
            for it in others:
                instead = [it] * (it is not None)
                yield [*before, " ".join([*words[:place], *instead, *words[place + 1 :]]), *after]


def wrong_texts(_program):
    """Where nobody races one text alone is right: with any change in it, it is refused."""
    for name, given in worked_scripts():
        try:
            script = script_of(given)
        except Refused:
            continue
        if not is_determined(script, 1):
            continue
        right = printed(script, True)
        fault = fault_of_text(script, 1, right)
        texts = (text_of(it) for it in changed(right.decode().splitlines()))
        taken = next((it for it in texts if fault_of_text(script, 1, it) is None), None)
        yield name, fault or taken and f"the judge accepts {taken.decode()!r}"
        yield f"{name}, not ended", None if fault_of_text(script, 1, right[:-1]) else "accepted"
