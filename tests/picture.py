"""The pages of tools/picture: each bar against its source, each fault against the audit's words.

Values that were worked out by hand stand in pictures.txt. What the page's code makes of a drawing
is looked at by browsed.py.
"""
import itertools
import json
import math
import os
import re
import sys
import tempfile
import types
from collections import defaultdict
from html.parser import HTMLParser

import follow_model
import judging
from audit_logs import example_cases, random_cases
from audit_model import DRAWING, Log, judged, options_of, printed
from audit_lines import lines_of
from harness import DONE, EXAMPLES, NO_STREAM, REFUSED, ROOT, Ran, fault_of, read, run

TOOLS = f"{ROOT}/tools"
PICTURE = f"{TOOLS}/picture"
sys.path.append(TOOLS)

import drawing as drawings
import picture_log

# (a module whose file has no ending)
page_of = types.ModuleType("picture_page")
page_of.__file__ = PICTURE
exec(compile(read(PICTURE), PICTURE, "exec"), vars(page_of))
# What of a page could ask for another file.
OUTSIDE = re.compile(r"https?:|\bsrc=|@import|<link|url\((?!#)|href=\"(?!#)|\bfetch\(|import\(")
# How many random logs and runs are drawn.
LOGS, RUNS = 3_000, 80


# ---- drawings, and what they have


def drawn(text, name=None):
    """The drawing of a text of a run."""
    return page_of.drawing_of(text.encode(), None, name)


def audited(text, *words):
    """What fdb_audit --json says of a log, by its model, or of one that grows."""
    if "--follow" in words:
        return follow_model.judged_as(text.encode(), ["--json", *words]).out.decode()
    return judged(text.encode(), options_of(["--json", *words]))[1].decode()


def logged(text, *words, said=None, name=None):
    """The drawing of a log with what is said of it."""
    said = audited(text, *words) if said is None else said
    return page_of.drawing_of(text.encode(), said.encode(), name)


def lines_text(lines):
    return "\n".join(map(json.dumps, lines))


def said_by_hand(text, said, faults):
    """What was said of a log, with these faults in place of its own: members with `=`."""
    lines = [None, *map(json.loads, text.split("\n"))]

    def value(name, word):
        it = json.loads(word) if word == "null" or word.isdigit() else word
        return {"line": it, **lines[it]} if name in picture_log.ROLES and it else it

    pairs = [[it.split("=") for it in fault.split()] for fault in faults]
    objects = [{name: value(name, word) for name, word in fault} for fault in pairs]
    total = next(it for it in said.splitlines() if it.startswith('{"total"'))
    return "\n".join([*map(json.dumps, objects), total, json.dumps({"faults": len(objects)})])


def hand_case(case):
    """A case of pictures.txt: its name, with its text, its drawing, and its parts by title."""
    head, *parts = case.strip().split("\n=> ")
    name, _, text = head.partition("\n")
    parts = [it.split("\n") for it in parts]
    if not parts[0][0].startswith("said"):
        return name, (text, drawn(text), {title: lines for title, *lines in parts})
    (title, *faults), *parts = parts
    said = audited(text, *title.split()[1:])
    said = said_by_hand(text, said, faults) if faults else said
    return name, (text, logged(text, said=said), {title: lines for title, *lines in parts})


HAND = dict(map(hand_case, read(f"{ROOT}/tests/pictures.txt").decode().split("\n# ")[1:]))


def calls_in(drawing):
    """What is found of it, its lanes, rounds, calls, bands and arrows, a line for each."""
    data = drawings.columns_of(drawing)
    named = data["name"]
    yield from drawing.account.split("\n")
    yield f"lanes {', '.join(data['lanes'])}; origin {data['origin'] or 0}"
    yield from ("{2}: {0} {1}".format(*it) for it in data["rounds"])
    for at, name in enumerate(named):
        places = " ".join(str(data[it][at]) for it in ("lane", "row", "left", "right"))
        yield f"{name}: {places} {drawing.lines[at].kind}, {data['label'][at]}"
    for bands in data["bands"]:
        yield from (f"band {left} {label}" for left, label in zip(bands["left"], bands["label"]))
    yield from (f"arrow {named[start]} > {named[end]}" for start, end in data["arrows"])


def faults_in(drawing):
    """Its faults, with what is about each."""
    named, data = [it.name for it in drawing.lines], drawings.columns_of(drawing)
    for fault, view in zip(drawing.faults, data["faults"]):
        knew = f", {named[fault.knower]} knew {fault.known}" if fault.known else ""
        yield f"fault {fault.title}{knew}{fault.late and f', {fault.late}'}"
        yield f"  {fault.reason}"
        yield from (f"  {role}: {named[at]}" for at, role in fault.roles.items())
        for start, end, has_tip in fault.links:
            yield f"  {named[start]} {'>' if has_tip else '-'} {named[end]}"
        gaps = ["{:.9g} to {:.9g} as {:g}".format(*it) for it in view["gaps"]]
        yield ", ".join([f"  view {view['from']:.9g} {view['to']:.9g} {view['lanes']}", *gaps])


def differing(what, found, wanted):
    return None if found == wanted else f"{what}: {found} in place of {wanted}"


def other_line(found, wanted):
    """The first line that differs, or None."""
    pairs = zip([*found, None], [*wanted, None])
    return next((f"{one!r} in place of {two!r}" for one, two in pairs if one != two), None)


def by_hand(_program):
    """What runs and logs come to: each is compared with what was worked out by hand."""
    for name, (_text, drawing, parts) in HAND.items():
        for title, lines in (("calls", calls_in), ("faults", faults_in)):
            if title in parts:
                yield f"{name}, {title}", other_line(lines(drawing), parts[title])


# ---- pages


class Page(HTMLParser):
    """The texts of a page's elements by id, all that is shown at "", and its links.

    `fault` says what is not closed.
    """

    def __init__(self, page):
        super().__init__()
        self.open, self.texts, self.links, self.fault = [], {}, [], None
        self.feed(page)
        left = [tag for tag, _ in self.open if tag not in ("html", "body", "p", "li")]
        self.fault = self.fault or (f"{left[0]} is not closed" if left else None)

    def handle_starttag(self, tag, attributes):
        said = dict(attributes)
        self.links += [said.get("href")] * (tag == "a")
        if tag not in ("meta", "br", "input"):
            self.open.append((tag, said.get("id")))

    def handle_endtag(self, tag):
        if not self.open or self.open.pop()[0] != tag:
            self.fault = self.fault or f"{tag} is closed where it is not open"

    def handle_data(self, text):
        is_shown = {"script", "style", "title"}.isdisjoint(tag for tag, _ in self.open)
        for name in [*(name for _, name in self.open if name), *[""] * is_shown]:
            self.texts[name] = self.texts.get(name, "") + text


def plain(text):
    return " ".join(re.sub("[\u2068\u2069]", "", text).split())


def page_fault(drawing):
    """What is wrong with the page of a drawing: it is whole, tells all, and asks for no file."""
    written = page_of.page(drawing)
    page, count = Page(written), len(drawing.faults)
    said = {name: plain(text) for name, text in page.texts.items()}
    told = [drawing.heading, drawing.account, *drawing.notes]
    told += [part for it in drawing.faults for part in (it.title, it.reason)]
    missing = [it for it in told if plain(it) not in said[""]]
    links = [f"#fault-{at}" for at in range(1, count + 1)] * (count > 1)
    first = [tuple(map(plain, (it.title, it.means, it.reason))) for it in drawing.faults[:1]]
    shown = [tuple(said[it] for it in ("said", "means", "why"))] if "said" in said else []
    data = json.loads(json.dumps(drawings.columns_of(drawing)))
    return page.fault or next(filter(None, (
        differing("files", OUTSIDE.findall(written), []), differing("untold", missing, []),
        differing("links", page.links, links), differing("fault", shown, first),
        differing("tags in its data", "<" in page.texts["drawing"], False),
        differing("its data is right", json.loads(page.texts["drawing"]) == data, True),
    )), None)


def texts():
    """Worked texts of runs and those of clients that race, by name."""
    for name in sorted(os.listdir(EXAMPLES)):
        if name.endswith(".out"):
            yield f"examples/{name}", read(f"{EXAMPLES}/{name}").decode()
    for case in read(f"{ROOT}/tests/worked.txt").decode().split("# ")[1:]:
        name, _, rest = case.partition("\n")
        yield name, rest.partition("=>")[2].partition("\n")[2].strip() + "\n"
    yield from ((f"the race of seed {seed}", judging.lawful_text(seed)) for seed in range(RUNS))


def logs():
    """Of the logs of examples/logs the name, the text, the arguments and the drawing."""
    for name, given, words, _out in example_cases():
        words = [it for it in words if it not in ("--all", "--history")]
        name = f"examples/logs/{name}"
        yield name, given.decode(), words, logged(given.decode(), *words, name=name)


def pages(_program):
    """The page of each text and log is whole, and each of its bars is what its line says."""
    for name, text in texts():
        drawing = drawn(text)
        yield name, page_fault(drawing) or run_fault(text, data_of(drawing))
        ended = drawn(text.replace("\n", "\r\n"))
        yield f"{name}, with carriage returns", None if ended == drawing else "it differs"
    for name, text, words, drawing in logs():
        yield name, page_fault(drawing) or log_fault(text, words, data_of(drawing), drawing)
    for name, (_text, drawing, _parts) in HAND.items():
        yield name, page_fault(drawing)


def data_of(drawing):
    """The data in the page of a drawing, as the browser reads it."""
    return json.loads(Page(page_of.page(drawing)).texts["drawing"])


def bars_in(data):
    """Each bar of a page's data, by its name."""
    for at, name in enumerate(data["name"]):
        bar = {it: data[it][at] for it in ("left", "right", "label", "words", "row")}
        kind = data["kinds"][data["kind"][at]]["id"]
        yield name, types.SimpleNamespace(lane=data["lanes"][data["lane"][at]], kind=kind, **bar)


# ---- each bar against its source


def log_fault(text, words, data, drawing):
    """What of a log's bars is not as its line is, and what of its faults is not as the audit says.
    """
    options = options_of(words)
    log = Log(lines_of(text.encode(), options.key), options)
    sentences = [case.sentence(fault, k, case.reasons(fault, k)[0])
                 for case, fault, k in log.faults()]
    return bars_fault(log, range(len(log.lines)), data) or reasons_fault(drawing, sentences)


def bars_fault(log, places, data):
    """What of the bars is not as the lines are, which stand at these places of a log."""
    bars, first = dict(bars_in(data)), int(data["origin"].replace(",", "") or 0)
    for place, line, (name, bar) in zip(places, log.lines, bars.items(), strict=True):
        number = place + 1
        times = [it if it is None else it - first for it in (line.began, line.ended)]
        times = [10 * number - 9, 10 * number - 1] if line.began is None else times
        label = f"from {printed(line.value)[1:-1]}" if line.kind == "learn" else str(line.value)
        nameless = line.client is None
        lane = "callers without a name" if nameless else f"client {printed(line.client)[1:-1]}"
        found = (name, plain(bar.lane), bar.kind, bar.left, bar.right, plain(bar.label))
        wanted = (f"line {number}", plain(lane), line.kind, *times, plain(label))
        said = f"Line {number}: {'a caller' if nameless else f'client {printed(line.client)}'} "
        if found != wanted or not plain(bar.words).startswith(plain(said)):
            return f"line {number} is drawn as {found}: {bar.words}"
        end = "; its end is not known." if line.ended is None else f" to {line.ended}."
        if line.began is not None and f", from {line.began}{end}" not in bar.words:
            return f"line {number} is told as {bar.words}"
    return log_known_fault(log, places, data)


def reasons_fault(drawing, sentences):
    """What differs between the reasons of faults and these sentences, in which no number is parted.
    """
    reasons = [re.sub(r"(?<=\d),(?=\d{3})", "", plain(it.reason)) for it in drawing.faults]
    return differing("reasons", reasons, sentences)


def log_known_fault(log, places, data):
    """What is said of what a call knew, or of what is known to all, that the model does not say."""
    by_key = dict(zip(dict.fromkeys(it.key for it in log.lines), data["bands"], strict=True))
    bar_of = {place: bar for place, (_name, bar) in zip(places, bars_in(data))}
    for case in log.cases:
        for k, line in enumerate(case.lines):
            bar = bar_of[case.at[k]]
            known = max(case.knows[k], case.last[k] * (line.kind in DRAWING))
            said = re.search(r"before it: (\d+)\.$", bar.words)
            if line.kind != "learn" and int(said[1] if said else 0) != known:
                return f"line {case.at[k] + 1}: it says {said}, and {known} was known"
            bands = by_key[line.key]
            before = [int(label.split()[0]) for left, label in zip(bands["left"], bands["label"])
                      if left < bar.left]
            past = [case.lines[j].value for j in case.before[k]
                    if case.is_past(j, k) and case.lines[j].kind != "ask"] if line.began else []
            if before and case.has_times and before[-1] != max([*past, case.start]):
                return f"line {case.at[k] + 1} stands behind {before}, of {past}"
    return None


def run_fault(text, data):
    """What of a run's bars is not as its reply is, or does not stand in its round and record."""
    replies = [it.split() for it in text.splitlines() if it[:1].isdigit()]
    events = [it.split() for it in text.splitlines() if it.startswith("history ")]
    return replies_fault(replies, data) or seen_fault(replies, data) or order_fault(events, data)


def replies_fault(replies, data):
    """Each reply has its bar in its client's lane and its round, and each tell one behind that."""
    bars, last = dict(bars_in(data)), defaultdict(int)
    rounds = {name: (left, right) for left, right, name in data["rounds"]}
    for number, (round_, client, _place, do, *rest) in enumerate(replies, 1):
        bar, (left, right) = bars.pop(f"line {number}", None), rounds[f"round {round_}"]
        wanted = kind_of_reply(do, rest)
        is_right = bar and (bar.lane, bar.kind, re.sub(" (un)?locks$", "", bar.label)) == (
            f"client {client}", *wanted)
        if not is_right:
            return f"line {number} is drawn as {bar}, and is {wanted}"
        if not max(left, last[client]) < bar.left < bar.right < right:
            return f"line {number} is not in its round, or not in the order of its client"
        last[client] = bar.left
        if wanted[0] in ("read", "locked", "raised") and (fault := record_fault(bar, rest, data)):
            return f"line {number}: {fault}"
    for number, (round_, client, _place, do, *rest) in enumerate(replies, 1):
        learn = bars.pop(f"learn of line {number}") if do == "tell" else None
        others = [it.left for _name, it in bars_in(data) if it.kind != "learn"]
        left, right = rounds[f"round {round_}"]
        if learn and ((learn.lane, learn.label) != (f"client {rest[0]}", f"from {client}")
                      or not max(it for it in others if it < right) < learn.left < right):
            return f"what line {number} tells is learnt as {learn}"
    return differing("other bars", [*bars], [])


def record_fault(bar, rest, data):
    """A read stands at the record that it tells, and a report that raised it where one begins."""
    bands = [[*it] for it in zip(*(data["bands"][0][it] for it in ("left", "label", "locked")))]
    at = len([it for it in bands if it[0] < bar.left]) - 1
    left, label, locked = bands[at]
    if bar.kind == "raised":
        turn = (locked - bands[at - 1][2]) if at else locked
        turns = [" locks"] if turn > 0 else [" unlocks", ""] if turn else [""]
        is_right = left == bar.left - 1 and bar.label in [f"{rest[0]}{it}" for it in turns]
        is_right = is_right and label.split()[0] == rest[0]
    else:
        is_locked = bar.kind == "locked" or rest[1] == "locked"
        version = rest[2 * (bar.kind == "locked")]
        is_right = (label, locked) == (version + " locked" * is_locked, int(is_locked))
    return None if is_right else f"it stands at the record {left} {label} {locked}"


def seen_fault(replies, data):
    """What is said that clients had seen: what they read, reported and were told."""
    bars, seen, told, now = dict(bars_in(data)), defaultdict(int), [], None
    for number, (round_, client, _place, do, *rest) in enumerate(replies, 1):
        for who, version in told if round_ != now else ():
            seen[who] = max(seen[who], version)
        told, now = (told if round_ == now else []), round_
        said = re.search(r" Its client had seen (\d+)\.$", bars[f"line {number}"].words)
        if seen[client] != int(said[1] if said else 0):
            return f"line {number} says {said}, and its client had seen {seen[client]}"
        if do == "tell":
            told.append((rest[0], seen[client]))
        elif do in ("grv", "report") and (rest[0] != "refused" or rest[1] == "Locked"):
            seen[client] = max(seen[client], int(rest[2 * (rest[0] == "refused")]))
    return None


def order_fault(events, data):
    """The events of a round stand in the order of the history."""
    calls = defaultdict(list)
    for _name, bar in sorted(bars_in(data), key=lambda it: it[1].left):
        calls[bar.lane].append(bar.left)
    lefts = [calls[f"client {it[3]}"][int(it[5])] for it in events]
    for one, two in zip(lefts, lefts[1:]):
        if one > two and any(left < two < one < right for left, right, _name in data["rounds"]):
            return f"events stand at {one} and {two}, and the history has the other order"
    return None


def kind_of_reply(do, rest):
    """What a reply is drawn as: a kind, and a label."""
    if rest[:2] == ["refused", "Locked"]:
        return "locked", rest[2]
    if rest[0] == "refused":
        return "refused", rest[1]
    if do == "grv":
        return "read", f"{rest[rest.index('used') + 1]} min" if "used" in rest else rest[0]
    if do == "report":
        return "-".join(rest[1:-2]), rest[0] + " min" * (rest[1] == "min")
    return ("tell", f"to {rest[0]}") if do == "tell" else (rest[-1], rest[3])


def random_logs(_program):
    """Of random logs each bar is what its line says, and each fault what the audit says."""
    met = 0
    for name, given, words in random_cases(LOGS):
        text = given.decode()
        said = audited(text, *words)
        if not said:
            # (it is refused)
            continue
        drawing = logged(text, said=said)
        met += len(drawing.faults)
        data = json.loads(json.dumps(drawings.columns_of(drawing)))
        objects = [it for it in map(json.loads, said.splitlines()) if "fault" in it]
        options = options_of(words)
        cases = [case for case, *_ in Log(lines_of(given, options.key), options).faults()]
        found = zip(drawing.faults, objects, cases, strict=True)
        wrong = (path_fault(drawing, *its) for its in found)
        yield name, log_fault(text, words, data, drawing) or next(filter(None, wrong), None)
    yield "enough faults", None if met > LOGS else f"{met}"


def path_fault(drawing, fault, said, case):
    """Says what of a fault's object its links, its view and its lateness have not."""
    names = ["at", "reported", "drawn", "by", "teller", *["first"] * bool(said.get("late"))]
    at = {name: said[name]["line"] - 1 for name in names if said.get(name)}
    knower, other = at.get("reported", at["at"]), at.get("drawn", at.get("reported"))
    is_beside = other is not None and at.get("by") != at["at"]
    beside = links_between(case, other, at["at"]) if is_beside else []
    chain = [it[:2] for it in fault.links]
    way = [at["by"], knower] if "by" in at else []
    if "teller" in at:
        learns = [end for _start, end in chain[:len(chain) - len(beside) - 1]]
        way = [at["by"], *learns, knower] if learns[-1:] == [at["teller"]] else []
    wanted = [*((*both, True) for both in zip(way, way[1:])), *beside]
    late = [it for it in (said.get("late"),) if it]
    unknown = [both for both in zip(way, way[1:]) if not is_known(case, *both)]
    is_right = (
        fault.links == wanted and not unknown and set(at.values()) <= set(fault.roles)
        and fault.at == at["at"]
        and (fault.known, fault.knower) == (str(said["known"]) if "known" in said else None, knower)
        and (fault.late, fault.first) == (f"{late[0]:,} too late" if late else "", at.get("first"))
    )
    return None if is_right else f"{fault}, of {said}, with {wanted}"


def links_between(case, one, other):
    """What may join two calls that a reason names: an arrow where one came before, and a dashed
    line where none did, whatever the ends are that are not known."""
    for both in ((one, other), (other, one)):
        if is_known(case, *both):
            return [(*both, True)]
    lines = [case.lines[case.at.index(it)] for it in (one, other)]
    ends = [[it.began, math.inf] if it.ended is None else [it.ended] for it in lines]
    are_sure = not case.has_times or all(
        max(it.began for it in lines) <= min(its) for its in itertools.product(*ends))
    return [(one, other, False)] * are_sure


def is_known(case, one, other):
    """Whether a call knew of another by the model, or was a learn by which its client did."""
    one, other = map(case.at.index, (one, other))
    learns = dict(case.learns[case.lines[other].client])
    return one in case.before[other] or one in learns.get(other, ())


# ---- bugs that were planted, and what they would change


def rows_at(*calls):
    """The rows of reads of one client, from when to when each is."""
    lines = [{"client": "a", "read": 1, "began": began, "ended": ended} for began, ended in calls]
    return drawings.columns_of(logged(lines_text(lines)))["row"]


def planted(_program):
    """What bugs that were planted once would change: names, numbers, counts and accounts."""
    tag = "</script></style><!--<b>&amp;"
    text = HAND["a log without times"][0].replace('"a"', json.dumps(tag)).replace('"b"', '"\\"\\n"')
    drawing, tagged = logged(text, name=tag), json.dumps(tag)
    is_named = drawing.faults and f'client "{tag}"' in drawing.faults[0].reason
    yield "names that look like tags", page_fault(drawing) or (None if is_named else drawing.faults)
    turned = logged(text.replace('\\"\\n', "\u202eb\u05d0"))
    long = drawings.columns_of(logged(text.replace(tagged, f'"{"x" * 10_000}"')))
    yield "a name that turns text", differing(
        "lane", drawings.columns_of(turned)["lanes"][1], "client \u2068\\u202eb\u05d0\u2069")
    found = '<p id="why">client &quot;<bdi>\\u202eb\u05d0</bdi>&quot; read' in page_of.page(turned)
    yield "a name that turns a sentence", None if found else turned.faults[0].reason
    lengths = [len(it) for it in long["lanes"] + long["words"]]
    yield "a long name", None if max(lengths) < 250 else f"{max(lengths)}"
    times = [{"client": "a", "commit": 200, "began": 2**60 + 1, "ended": 2**60 + 5},
             {"client": "b", "read": 100, "began": 2**60 + 2**40 + 7, "ended": None}]
    data = drawings.columns_of(logged(lines_text(times), "--margin", str(2**40)))
    found = data["origin"], data["left"], data["bands"][0]["left"], data["faults"][0]["late"]
    wanted = "1,152,921,504,606,846,977", [0, 2**40 + 6], [2**40 + 4], "1,099,511,627,778 too late"
    yield "moments above 2^53, and a margin above 2^32", differing("data", found, wanted)
    for calls, wanted in (([(1, 5), (5, 9)], [0, 0]), ([(1, 6), (5, 9)], [0, 1]),
                          ([(1, 5), (2, 3), (5, 9)], [0, 1, 0]), ([(1, None), (9, 9)], [0, 1]),
                          ([(1, None), (2, None), (3, 4)], [0, 1, 2])):
        yield f"rows of {calls}", differing("rows", rows_at(*calls), wanted)
    text = HAND["a log"][0]
    digits = re.sub(r"(?<=:)(\d+)", r'"\1"', text).replace('"a"', "7")
    is_same = logged(digits) == logged(text.replace('"a"', '"7"'))
    yield "numbers in texts, and a client's number", differing("the same", is_same, True)
    for count, of in ((1, "A log of 1 client"), (2, "A log of 2 clients")):
        lines = [{"client": f"c{at % count}", "read": 1} for at in range(2)]
        lines.append({"client": "c0", "ask": 5})
        drawing = logged(lines_text(lines))
        yield of, differing("account", (drawing.heading, drawing.account),
                            (of, "No fault in 2 reads, 1 ask."))
    said = logged('{"client":"its bits","read":1}').lines[0].words
    yield "a name with 'its'", differing("words", said, 'Line 1: client "its bits" read 1.')
    nameless = [{"read": 1, "began": 1, "ended": 2}] * 2
    found = logged(lines_text(nameless))
    yield "callers without a name", differing(
        "heading", (found.heading, drawings.columns_of(found)["lanes"]),
        ("A log of callers without a name", ["callers without a name"]))


# ---- texts that are refused


RUN = """0 0 0 ask prev 0 version 100 ordinal 0 fresh
0 0 1 ask prev 100 version 200 ordinal 1 fresh
0 0 2 report 200 raised pos 1
0 0 3 tell 1 pos 1
1 1 0 grv 200 unlocked none pos 1
audit ok events 2 raised 1 versions 2
history 0 client 0 call 2 report 200 unlocked none raised
history 1 client 1 call 1 read 200 unlocked none
"""
# What stands in the place of which line of RUN, and the refusal there.
REFUSED_TEXTS = """BadLine 5 1 1 0 get 100 unlocked none pos 1
BadLine 3 0 0 2 report 200 rised pos 1
BadLine 5 1 1 0 grv refused Closed
BadLine 5 1 64 0 grv 100 unlocked none pos 1
BadLine 4 0 0 3 tell 0 pos 1
BadLine 5 Order 1 1
BadOrder 2 0 0 0 ask prev 0 version 100 ordinal 0 fresh
BadOrder 7 1 1 1 grv 200 unlocked none pos 1
BadOrder 7 audit ok events 2 raised 1 versions 2
BadAudit 6 audit ok events 3 raised 1 versions 2
BadHistory 6 history 0 client 0 call 2 report 200 unlocked none raised
BadHistory 7 history 1 client 1 call 1 read 200 unlocked none
BadHistory 8 history 1 client 1 call 0 read 200 unlocked none
BadHistory 8 history 1 client 1 call 1 read 200 locked none"""
# Behind how many of its lines the same is cut, and how that is refused.
CUT_TEXTS = {7: "Cut 7", 5: "Cut 5", 0: "BadLine 1"}
# Lines of a log that the audit accepts, and of those one in the place of the last.
TIMED, UNTIMED = '{"read":1,"began":3,"ended":4}', '{"client":"a","read":1}'
REFUSED_LINES = (
    "{}{", "[]", '{"client":"a"}', '{"client":"a","read":1,"ask":2}', '{"client":"a","read":"1a"}',
    '{"client":"a","read":true}', '{"client":"a","read":-1}', '{"client":null,"read":1}',
    '{"read":1}', '{"read":1,"began":3,"ended":2}', '{"read":1,"began":3,"ended":"x"}',
    '{"report":1,"began":3}', '{"client":"a","learn":"a","began":3,"ended":4}',
    '{"client":"a","learn":"b"}',
)
# What is changed in what was said of a log, and how it is refused then, if it is.
CHANGED_VERDICTS = (
    ('"client":"b"', '"client":"a"', "BadVerdict 1"),
    ('"began":10,', '"began":11,', "BadVerdict 1"),
    ('"ended":14}', '"ended":15}', "BadVerdict 1"),
    ('"by":{"line":1', '"by":{"line":9', "BadVerdict 1"),
    ('"commit":200', '"report":200', "BadVerdict 1"),
    ('"commit":200', '"commit":300', "BadVerdict 1"),
    ('"Order"', '"Orders"', "BadVerdict 1"),
    ('"reason":"known"', '"reason":"knew"', "BadVerdict 1"),
    ('"reason":"known"', '"reason":"reported"', "BadVerdict 1"),
    ('"known":200,', '', "BadVerdict 1"),
    ('"at":', '"on":', "BadVerdict 1"),
    ('"means":"ended"', '"means":"learnt"', "BadVerdict 1"),
    ('"by":{"line":1,"client":"a","commit":200,"began":10,"ended":14}',
     '"by":{"line":7,"client":"c","read":300,"began":41,"ended":61}', "BadVerdict 1"),
    ('"by":{"line":1,"client":"a","commit":200,"began":10,"ended":14}',
     '"by":{"line":5,"client":"a","report":300,"began":20,"ended":null}', "BadVerdict 1"),
    ('"late":35', '"late":"35"', "BadVerdict 1"),
    ('"members":[]', '"members":[{}]', "BadVerdict 2"),
    ('"lines":7', '"lines":8', "BadVerdict 2"),
    ('"margin":0', '"margin":"x"', "BadVerdict 2"),
    ('{"faults":1', 'audit ok\n{"faults":1', "BadVerdict 3"),
    ('{"faults":1', '{"faults":2', "Cut 4"),
    ('{"faults":1', '{"history":0}\n{"fault_rate":0.5}\n{"more":{},"faults":1', None),
    ('{"faults":1', 'fdb_audit: audit fault: Order 4\n{"faults":1', None),
    ('"means":', '"more":[1],"means":', None),
)


def refused_texts(_program):
    """Another text is refused with the name and line of what is wrong, and nothing is written."""
    right = RUN.splitlines()
    for case in REFUSED_TEXTS.splitlines():
        name, at, line = case.split(" ", 2)
        given = [*right[: int(at) - 1], line, *right[int(at) :]]
        yield case, refusal_fault(lambda: drawn("\n".join(given)), f"{name} {at}")
    for count, refusal in CUT_TEXTS.items():
        yield refusal, refusal_fault(lambda: drawn("\n".join(right[:count])), refusal)
    total = audited(f"{UNTIMED}\n{UNTIMED}")
    for line in (*REFUSED_LINES, f"{UNTIMED}\n{TIMED}"):
        above = "" if "\n" in line else f"{TIMED if 'began' in line else UNTIMED}\n"
        yield line, refusal_fault(lambda: logged(f"{above}{line}", said=total), "BadLog 2")
    text = HAND["a log"][0]
    said = audited(text)
    for old, new, refusal in CHANGED_VERDICTS:
        changed = said.replace(old, new, 1)
        fault = "it is not there" if changed == said else None
        yield f"{old} > {new}", fault or refusal_fault(lambda: logged(text, said=changed), refusal)
    for at in range(3):
        cut = "".join(said.splitlines(True)[:at])
        yield f"cut behind {at}", refusal_fault(lambda: logged(text, said=cut), f"Cut {at}")
    yield from by_command(text.encode(), said.encode())


def refusal_fault(draw, refusal):
    try:
        draw()
    except drawings.Refused as why:
        return None if refusal and str(why).startswith(f"{refusal}: ") else f"refused by {why}"
    return "it is not refused" if refusal else None


def by_command(log, said):
    """The command writes a page, or tells on standard error why not."""
    page = page_of.page(logged(log.decode(), said=said.decode(), name="/dev/stdin"))
    written = lambda page: Ran(DONE, page.encode(), b"")
    refused = lambda why: Ran(REFUSED, b"", b"picture: text refused: " + why)
    with tempfile.NamedTemporaryFile() as file:
        file.write(said)
        file.flush()
        for text, words, wanted in (
            (log, ["/dev/stdin", file.name], written(page)),
            (RUN.encode(), [], written(page_of.page(drawn(RUN)))),
            (b"0 0 0 ask prev 0 version 100 ordinal 0 fresh\n", [], refused(b"Cut 1: ")),
            (RUN.encode() + b"\xff\n", [], refused(b"NotText 9: ")),
            (b"{}\n", ["/dev/stdin", file.name], refused(b"BadLog 1: ")),
            (log, ["/dev/stdin", f"{EXAMPLES}/first.out"], refused(b"BadVerdict 1: ")),
            (b"", [f"{ROOT}/none"], Ran(NO_STREAM, b"", b"picture: reading failed: ")),
        ):
            ran = run([PICTURE, *words], text, cwd=ROOT)
            is_said = ran.err.startswith(wanted.err) and ran.err.count(b"\n") == bool(wanted.err)
            fault = fault_of(ran, wanted._replace(err=None))
            yield f"tools/picture {words}", fault or (None if is_said else f"it said {ran.err!r}")
