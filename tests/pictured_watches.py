"""The pages of logs that grow: what tools/picture makes of what fdb_audit --follow said of them."""
import json
import random

import follow
from audit_search import text_of
from follow_model import Followed, judged_as, rows_of
from picture import (bars_fault, data_of, differing, page_fault, page_of, reasons_fault,
                     refusal_fault)

# How many random logs there are, and how many of them at least have a fault that is at least so
# late, and how many have lines that were refused.
LOGS, LEAST = 150, 20
# Counts of a watch while it runs, as a later one may write them, and how the page tells them.
COUNTS = {"lines": 12, "by_kind": {"reads": 7, "asks": 5}, "newest_end": 1234, "settled": None}
COUNTED = ("While it ran it counted, at last: lines 12, reads 7, asks 5, newest end 1,234, "
           "settled null.")
NOT_ENDED = "The watch had not ended: some of the lines were not judged yet."
MORE_LINES = b'\n{"read":1,"began":9,"ended":9}\n{'


def random_watches():
    """Random logs that grow, of which every other has lines that are refused, and arguments."""
    for number in range(LOGS):
        dice = random.Random(f"drawn {number}")
        lines = follow.disordered(follow.grown(dice), dice.choice((0, 0, 2, 10)), dice)
        most = max(follow.behind_ends(lines))
        words = [*follow.random_words(dice), "--json"]
        words += ["--follow", str(dice.choice((most, 2 * most)))]
        given = text_of(lines, dice)
        yield number, follow.with_refused(given, dice) if number % 2 else given, words, dice


def drawn_of(given, texts):
    return page_of.drawing_of(given, "\n".join(texts).encode(), None)


def said_of(log):
    """Of each fault why it stands and how late it is, by the model: 'at least' beyond what the
    watch keeps."""
    for case, fault, k in log.faults():
        case.told = next(case.lates(fault, k))
        late = case.told[1] if case.told else 0
        least = "at least " * (late > log.behind)
        said = case.sentence(fault, k, case.reasons(fault, k)[0])
        said = said.replace(f", {late} too late: ", f", {least}{late} too late: ")
        yield said, f"{least}{late:,} too late" if late else ""


def told_of_refused(numbers):
    """What the page's account tells of lines that were refused."""
    if not numbers:
        return []
    named = ", ".join(map(str, numbers[:10])) + ", .." * (len(numbers) > 10)
    return [f"{len(numbers)} refused line{'' if len(numbers) == 1 else 's'} left out: {named}."]


def of_watches(_program):
    """Of random logs each line that was not refused has its bar, and each fault its sentence."""
    least = left_out = 0
    for number, given, words, dice in random_watches():
        log, texts = Followed(given, words), judged_as(given, words).out.decode().splitlines()
        rows, drawing = [*rows_of(given, log.options.key)], drawn_of(given, texts)
        refused = [at for at, row in enumerate(rows, 1) if type(row) is str]
        taken = [at for at, row in enumerate(rows) if type(row) is not str]
        said, lates = [list(its) for its in zip(*said_of(log))] or [[], []]
        least += any(it.startswith("at least") for it in lates)
        left_out += bool(refused)
        yield f"log {number}", (
            bars_fault(log, taken, data_of(drawing)) or reasons_fault(drawing, said)
            or differing("how late", [it.late for it in drawing.faults], lates)
            or differing("account", drawing.account.split("\n")[1:], told_of_refused(refused))
            or page_fault(drawing))
        at = dice.randint(0, len(drawing.faults))
        between = [*texts[:at], '{"watched":{"lines":1}}', json.dumps({"watched": COUNTS})]
        counted = drawing._replace(account=f"{drawing.account}\n{COUNTED}")
        found = drawn_of(given, [*between, *texts[at:]])
        yield f"log {number}, with counts", differing("drawing", found, counted)
        yield f"log {number}, while it runs", running_fault(drawn_of(given, between), drawing, at)
        found = drawn_of(given, stopped(texts, at, dice))
        yield f"log {number}, stopped in between", differing("drawing", found, drawing)
        grown = drawn_of(given.removesuffix(b"\n") + MORE_LINES, texts).account.split("\n")[-1]
        wanted = f"It read {len(rows)} of the log's {len(rows) + 2} lines."
        yield f"log {number}, grown since", differing("account", grown, wanted)
    is_enough = min(least, left_out) >= LEAST
    yield "enough faults", None if is_enough else f"{least} at least so late, {left_out} left out"


def running_fault(running, drawing, count):
    """What is wrong with the drawing of a watch that had told so many faults and not ended: what is
    known to all is not, as the margin is not."""
    places = [it.at for it in running.faults]
    bands = [it for its in running.bands.values() for it in its]
    lates = [it.late for it in running.faults if it.late and not it.is_least]
    return (differing("faults", places, [it.at for it in drawing.faults[:count]])
            or differing("account", running.account.split("\n")[-2:], [NOT_ENDED, COUNTED])
            or differing("bands", bands, []) or differing("exact lates", lates, [])
            or page_fault(running))


def stopped(texts, at, dice):
    """The same, told by a watch that was stopped behind so many faults, and went on."""
    total, counts = map(json.loads, [it for it in texts if not it.startswith('{"fault"')][:2])
    names = ("lines", "refused", "early")
    read = {name: dice.randint(0, total["total"][name]) for name in names}
    left = {name: total["total"][name] - read[name] for name in names}
    ends = [[json.dumps({**total, "total": its}), json.dumps({"faults": faults})]
            for its, faults in ((read, at), (left, counts["faults"] - at))]
    return [*texts[:at], *ends[0], *texts[at:counts["faults"]], *ends[1]]


# A log that grows, of which its third line is refused, and what is changed in what a watch said of
# it: how that is refused, if it is.
LOG = b"""{"client":"a","commit":200,"began":10,"ended":14}
{"client":"b","read":100,"began":15,"ended":16}
{"client":"b","read":100,"began":15}
{"client":"c","read":300,"began":"007","ended":18,"note":"x"}
"""
CHANGED = (
    ("", "", None),
    ('"follow":5', '"follow":"x"', "BadVerdict 2"),
    ('"follow":5', '"follow":null', "BadLog 3"),
    ('"line":2', '"line":3', "BadVerdict 1"),
    ('"lines":3', '"lines":4', "BadVerdict 2"),
    ('"early":0', '"early":"none"', "BadVerdict 2"),
    ('"total":{', '"total":[],"other":{', "BadVerdict 2"),
    ('"refused":1', '"refused":2', "BadVerdict 2"),
    ('"refused":1', '"refused":0', None),
    ('{"faults":1', '{"faults":2', "Cut 4"),
    ('{"faults":1', '{"faults":0', "Cut 4"),
    ('{"faults":1', '{"watched":{}}\n{"faults":1', None),
    ('{"faults":1', '{"watched":[]}\n{"faults":1', "BadVerdict 3"),
)
# Lines that a watch refuses, of which Python alone would read some; and others that it takes.
NO_LINES = (
    b'{"read":1,"began":1,"ended":2,"note":NaN}', b'{"read":1,"began":1,"ended":2,"note":1e999}',
    b'{"read":1,"began":1,"ended":2,"note":"\\ud800"}', b'{"read":-0,"began":1,"ended":2}',
    b'{"read":1,"began":1,"ended":2,"note":"\\ud800","note":1}', b"", b" \r", b"\xff", b'"read"',
    b'{"read":1,"began":1,"ended":2,"note":"\xff"}', b'{"read":1,"began":1}', b'["read"]',
    b'{"read":1,"began":1,"ended":2,"note":%s1%s}' % (b"[" * 127, b"]" * 127),
    b'{"read":1,"began":1,"ended":2,"note":"%s"}' % (b" " * 2**20),
    b'{"read":1,"began":1,"ended":2,"key":true}', b'{"client":"b","learn":"a"}',
    b'{"client":"b","read":1}',
)
LINES = (
    b'{"read":1,"began":1,"ended":2,"note":%s1%s}\r' % (b"[" * 126, b"]" * 126),
    b'{"read":"01","began":1,"ended":2,"note":"\\ud83d\\ude00"}',
    b'{"read":1,"began":1,"ended":null}',
)


def refused_watches(_program):
    """What a watch did not say of a log is refused, and a line where the watch refuses it."""
    texts = judged_as(LOG, ["--follow", "5", "--json"]).out.decode()
    for old, new, refusal in CHANGED:
        changed = texts.replace(old, new, 1)
        fault = "it is not there" if old not in texts else None
        yield f"{old} > {new}", fault or refusal_fault(
            lambda: drawn_of(LOG, changed.splitlines()), refusal)
    early = drawn_of(LOG, texts.replace('"early":0', '"early":2,"judged":1').splitlines())
    yield "early lines", differing("account", early.account.split("\n")[2:], [
        "2 lines came early, of which 1 were judged."])
    for line in (*NO_LINES, *LINES):
        given = line + b"\n" + LOG
        said = judged_as(given, ["--follow", "5", "--json", "--key", "key"]).out.decode()
        refused = [1, 4] if line in NO_LINES else [4]
        account = drawn_of(given, said.splitlines()).account.split("\n")[1:]
        is_right = account == told_of_refused(refused) and f'"refused":{len(refused)},' in said
        yield f"{line[:60]}", None if is_right else f"{account}, of {said}"
