"""What fdb_audit has to do with a log, by its definitions: slow, and plain.

`Case` has the lines of a log, or of a key, and what is asked of them: which comes before which,
what each knew, the faults, and of each all that may be said of it; `Log` has a case for each key;
and `judged` says how fdb_audit ends.
"""
import json
import re
from collections import defaultdict
from typing import NamedTuple, Optional

from audit_lines import CALLS, KINDS, lines_of
from reader import Refused

DRAWING, REPORTING, SHOWING = ("commit", "ask"), ("commit", "report"), ("read", "commit", "report")
# After how many bytes it is told how far reading is.
TOLD = 67_108_864
# How many clients, and how many keys, are told with their faults.
MOST = 10
FAULTS = ("Order", "Wrong", "NotAbove", "Twice", "Stray")
# What is escaped in a name besides what JSON escapes.
UNPRINTABLE = re.compile("[\x7f-\x9f\u061c\u200e\u200f\u2028-\u202e\u2066-\u2069]")


class Options(NamedTuple):
    """What is asked for: START, where the log has all calls; how far clocks may be apart; by which
    member each key is judged by itself; which are shown, and which has the lines' own numbers; and
    what is written, and how."""

    complete: Optional[int] = None
    margin: int = 0
    key: Optional[str] = None
    show: tuple = ()
    numbers: Optional[str] = None
    all: bool = False
    totals: bool = False
    json: bool = False
    history: bool = False
    progress: bool = False


# ---- what is asked of lines


class Reason(NamedTuple):
    """Why a fault stands: a word, another line, a version that was known, and by which line."""

    word: str
    other: Optional[int] = None
    known: Optional[int] = None
    by: Optional["Witness"] = None


class Witness(NamedTuple):
    """How a version was known: by a line, since that had ended, was its own, or was learnt of."""

    place: int
    means: str
    teller: Optional[int] = None


class Case:
    """Lines at some places of a log, or all, with what is asked of them."""

    def __init__(self, lines, options=Options(), at=None):
        self.at = range(len(lines)) if at is None else at
        lines = [lines[it] for it in self.at]
        self.lines, self.margin = lines, options.margin
        self.options, self.json = options, options.json
        self.is_complete, self.start = options.complete is not None, options.complete or 0
        self.has_times = bool(lines) and lines[0].began is not None
        self.places = range(len(lines))
        # How each learn was told of lines, by client: the learn, and what its teller had heard.
        self.learns = defaultdict(list)
        self.before = self.by_time() if self.has_times else self.by_telling()
        self.knows = [max(self.seen_at(it, SHOWING), self.start) for it in self.places]
        self.last = [self.seen_at(it, DRAWING) for it in self.places]
        self.by = {kinds: self.versions(kinds) for kinds in (DRAWING, REPORTING)}

    def by_time(self):
        """Of each line, those that come before it: which had ended by then."""
        return [{j for j in self.places if self.had_ended(j, k)} for k in self.places]

    def had_ended(self, j, k):
        return self.is_past(j, k) or self.is_earlier(j, k)

    def is_past(self, j, k):
        """Whether a line had ended by more than the margin when another began."""
        a, b = self.lines[j], self.lines[k]
        return a.ended is not None and a.ended + self.margin < b.began

    def is_earlier(self, j, k):
        """Whether a line comes before another of its client, by that client's clock."""
        a, b = self.lines[j], self.lines[k]
        is_own = a.client is not None and a.client == b.client
        if not self.has_times:
            return is_own and j < k
        return is_own and a.ended is not None and (a.ended, j) < (b.began, k)

    def by_telling(self):
        """The same without times: a client's lines above, and what it had learnt by them."""
        heard, before = defaultdict(set), []
        for k, line in enumerate(self.lines):
            before.append(set(heard[line.client]))
            told = set(heard[line.value]) if line.kind == "learn" else set()
            self.learns[line.client].append((k, told))
            heard[line.client] |= told | {k}
        return before

    def seen_at(self, k, kinds):
        """The greatest version of lines of these kinds that come before a line, and 0."""
        return max((self.lines[j].value for j in self.before[k] if self.lines[j].kind in kinds),
                   default=0)

    def versions(self, kinds):
        """Of each version the lines of these kinds that have it."""
        found = defaultdict(list)
        for k in self.places:
            if self.lines[k].kind in kinds:
                found[self.lines[k].value].append(k)
        return found

    def drawers(self, version):
        return self.by[DRAWING].get(version, [])

    def reporters(self, version):
        return self.by[REPORTING].get(version, [])

    def is_raised(self, version):
        return any(self.knows[it] < version for it in self.reporters(version))

    def others_that_drew(self, k):
        """Who else drew a line's version, and not both are commits, which may share one."""
        share = lambda j: self.lines[j].kind == self.lines[k].kind == "commit"
        return [j for j in self.drawers(self.lines[k].value) if j != k and not share(j)]

    def stands(self, fault, k):
        """Whether a fault stands at a line."""
        line, value = self.lines[k], self.lines[k].value
        if fault == "Order":
            return line.kind == "read" and value < self.knows[k]
        if fault == "Wrong":
            is_there = value == self.start or self.is_raised(value)
            is_logged = self.is_complete or bool(self.reporters(value))
            return line.kind == "read" and not is_there and is_logged
        if fault == "NotAbove":
            return line.kind in DRAWING and value <= max(self.knows[k], self.last[k])
        if fault == "Twice":
            return line.kind in DRAWING and bool(self.others_that_drew(k))
        drawers = self.drawers(value) if line.kind == "report" else []
        if drawers:
            return not any(may_be_one(self.lines[it].client, line.client) for it in drawers)
        return line.kind == "report" and (self.is_complete or value <= self.start)

    def faults(self):
        """All faults, line by line: the kind, and the line."""
        return [(it, k) for k in self.places for it in FAULTS if self.stands(it, k)]

    def unreported(self):
        read = {line.value for line in self.lines if line.kind == "read"} - {self.start}
        return sum(not self.reporters(it) for it in read)

    # ---- why a fault stands: each of these reasons is true of it

    def ways(self, j, k):
        """How a line knew of one that comes before it."""
        if self.has_times and self.is_past(j, k):
            yield Witness(j, "ended")
        if self.is_earlier(j, k):
            yield Witness(j, "own")
        for m, told in self.learns[self.lines[k].client]:
            if m < k and j in told:
                yield Witness(j, "learnt", m)

    def known(self, word, k, version, kinds, other=None):
        """By which lines a line knew of a version, and how; or all began with it."""
        of = lambda j: self.lines[j].kind in kinds and self.lines[j].value == version
        found = [way for j in sorted(self.before[k]) if of(j) for way in self.ways(j, k)]
        return [Reason(word, other, version, by) for by in found or [None]]

    def reasons(self, fault, k):
        """All that may be said of why a fault stands."""
        value = self.lines[k].value
        if fault == "Order":
            return self.known("known", k, self.knows[k], SHOWING)
        if fault == "NotAbove":
            return self.known("known", k, max(self.knows[k], self.last[k]), CALLS)
        if fault == "Wrong":
            it = next(iter(self.reporters(value)), None)
            return [Reason("unreported")] if it is None else self.known(
                "reported", it, self.knows[it], SHOWING, it)
        drawers = self.others_that_drew(k) if fault == "Twice" else self.drawers(value)
        return [Reason("drawn", drawers[0]) if drawers else Reason("undrawn")]

    def outdating(self, fault, k):
        """The lines that outdate a call and whose ends are known, by these: end, rank and line.

        Of lines that ended together those that show a version come first.
        """
        kinds, least = {"Order": (SHOWING, 1), "NotAbove": (CALLS, 0)}.get(fault, ((), 0))
        return sorted((it.ended, it.kind not in SHOWING, j) for j, it in enumerate(self.lines)
                      if it.kind in kinds and it.value >= self.lines[k].value + least
                      and it.ended is not None)

    def late(self, fault, k):
        """The first line to end that outdates a call, and how late that is; or None."""
        end, _, j = next(iter(self.outdating(fault, k)), (None, None, k))
        return None if j == k else (j, max(0, self.lines[k].began - end))

    # ---- what is said of it, in sentences

    def own(self, j):
        """The number by which a line is told: its own, or its place in the log, from 1."""
        own = self.lines[j].number
        return self.at[j] + 1 if own is None else own

    def number(self, j):
        return f"line {self.own(j)}"

    def beside(self, line):
        texts = texts_beside(line, self.options)
        return "".join(f" {printed(name)}:{it}" for name, it in texts if it is not None)

    def mention(self, j):
        line = self.lines[j]
        client = f"{name_of(line)}, " if line.client is not None else ""
        return f"{self.number(j)} ({client}{line.kind} {line.value}{self.beside(line)})"

    def ended(self, j, k):
        ago = self.lines[k].began - self.lines[j].ended
        return f"{self.mention(j)} had ended {ago} before {self.number(k)} began"

    def way(self, k, reason):
        """How a line knew of a version."""
        if reason.by is None:
            return f"{reason.known} was known: all began with {reason.known}"
        j, means, teller = reason.by
        said = {
            "ended": lambda: self.ended(j, k),
            "own": lambda: f"{self.mention(j)} is an earlier call of its client",
            "learnt": lambda: f"{self.number(teller)} had learnt of {self.mention(j)}",
        }[means]()
        return f"{reason.known} was known: {said}"

    def sentence(self, fault, k, reason):
        """A fault, and why it stands."""
        line, it = self.lines[k], reason
        verb = {"read": "read", "report": "reported"}.get(line.kind, "drew")
        said = f"{name_of(line)} {verb} {line.value}{self.beside(line)}, "
        other = "" if it.other is None else self.mention(it.other)
        if it.word == "known":
            j, by = self.late(fault, k) or (None, 0)
            is_told = it.by and (it.by.place, it.by.means) == (j, "ended")
            late = f"{by} too late: {self.ended(j, k)}, and " if by and not is_told else "but "
            return f"{said}{late}{self.way(k, it)}"
        if it.word == "reported":
            way = self.way(it.other, it)
            if it.by and it.by.place == k:
                return f"{said}which was reported only after this: {way.split(': ', 1)[1]}"
            return f"{said}which {other} reported when {way}"
        if it.word == "drawn":
            return f"{said}and so did {other}" if fault == "Twice" else f"{said}which {other} drew"
        return f"{said}which nobody {'drew' if it.word == 'undrawn' else 'reported'}"

    # ---- and in JSON

    def line_object(self, j):
        line = self.lines[j]
        said = {"line": self.own(j)}
        said |= {"client": line.client} if line.client is not None else {}
        said |= {line.kind: line.value}
        said |= {"began": line.began, "ended": line.ended} if self.has_times else {}
        texts = texts_beside(line, self.options)
        members = {name: None if it is None else json.loads(it) for name, it in texts}
        return said | ({"members": members} if members else {})

    def fault_object(self, fault, k, reason):
        late, by = self.late(fault, k), reason.by
        said = {"fault": fault, "at": self.line_object(k)}
        said |= {"late": late[1], "first": self.line_object(late[0])} if late else {}
        said["reason"] = reason.word
        if reason.other is not None:
            said[reason.word] = self.line_object(reason.other)
        if reason.known is not None:
            said |= {"known": reason.known, "by": by and self.line_object(by.place)}
        said |= {"means": by.means} if by else {}
        is_learnt = by and by.means == "learnt"
        return said | ({"teller": self.line_object(by.teller)} if is_learnt else {})

    def texts(self, fault, k):
        """All lines that may be written of a fault."""
        if self.json:
            return [printed(self.fault_object(fault, k, it)) for it in self.reasons(fault, k)]
        return [f"audit fault: {fault} {self.own(k)}: {self.sentence(fault, k, it)}"
                for it in self.reasons(fault, k)]

    # ---- an order that explains lines without a fault

    def turns(self):
        """The acts, oldest first: what, version, and the lines whose act it is (none: others')."""
        acts = defaultdict(list)
        for k, line in enumerate(self.lines):
            for key, what, mine in self.acts(k, line) if line.kind != "learn" else ():
                acts[key, what, line.value] += [k] * mine
        return [(what, version, by) for (_, what, version), by in sorted(acts.items())]

    def acts(self, k, line):
        """A line's acts, and those of others that it needs: the key, what, and whether its own."""
        version, rank = line.value, (line.began or 0, k)
        if line.kind in DRAWING or version != self.start and not self.drawers(version):
            yield (version, 0, 0, 0), "ask", line.kind in DRAWING
        if line.kind == "commit":
            yield (version, 1, 0, 0), "report", True
        if line.kind == "report":
            is_late = version <= self.knows[k]
            yield (max(version, self.knows[k]), 3 if is_late else 2, *rank), "report", True
        if line.kind == "read":
            if version != self.start and not self.reporters(version):
                yield (version, 1, 0, 0), "report", False
            yield (version, 3, *rank), "read", True

    def history(self):
        """A line for each turn."""
        turns = [(what, version, k, place > 0) for what, version, by in self.turns()
                 for place, k in enumerate(by or [None])]
        return [self.turn(number, *it) for number, it in enumerate(turns)]

    def turn(self, number, what, version, k, is_shared):
        """The line of a turn, which is others' where k is None."""
        if self.json:
            at = None if k is None else self.line_object(k)
            key = {} if self.options.key is None else {"key": self.lines[0].key}
            return printed({"history": number, what: version, "at": at, **key, "shared": is_shared})
        if k is None:
            name, key = self.options.key, self.lines[0].key
            named = f" no {printed(name)}" if key is None else f" {printed(name)}:{printed(key)}"
            whose = "others" + (named if name is not None else "")
        else:
            line = self.lines[k]
            client = "" if line.client is None else f" {name_of(line)}"
            whose = f"{self.number(k)}{client}{self.beside(line)}"
        return f"history {number} {what} {version} {whose}{' shared' * is_shared}"


class Log:
    """The lines of a log, with a case for each key, by their first lines, or for all."""

    def __init__(self, lines, options):
        places = defaultdict(list)
        for place, line in enumerate(lines):
            places[line.key].append(place)
        self.lines, self.options = lines, options
        self.cases = [Case(lines, options, it) for it in places.values()]

    def faults(self):
        """All faults, line by line: the case, the kind, and the line in the case."""
        found = [(case, *it) for case in self.cases for it in case.faults()]
        return sorted(found, key=lambda it: it[0].at[it[2]])

    def counts(self):
        """How much was judged."""
        kinds, has_times = [line.kind for line in self.lines], self.cases[0].has_times
        counts = {"lines": len(kinds), "timed": len(kinds) * has_times}
        counts |= {f"{it}s": kinds.count(it) for it in KINDS}
        counts["unreported"] = sum(it.unreported() for it in self.cases)
        ordered = sum(len(it) for case in self.cases for it in case.before)
        return {**counts, "ordered": ordered if has_times else None}

    def passed(self):
        """What is written without a fault."""
        history = [it for case in self.cases for it in case.history()] * self.options.history
        return [*history, *self.head()] if self.options.json else [*self.head(), *history]

    def head(self):
        if self.options.json:
            return [self.total(), printed(tally([]))]
        return [f"audit ok {worded(self.counts())}"]

    def total(self):
        """The line of how much was judged, and by which arguments."""
        asked, counts = self.options, self.counts()
        if not asked.json:
            return f"audit total {worded(counts)}"
        members = [name for name, _ in texts_beside(self.lines[0], asked)]
        return printed({"total": counts, "arguments": {
            "complete": asked.complete, "margin": asked.margin, "by_key": asked.key is not None,
            "members": members}})

    def totals(self):
        """How much was judged, and the faults there are, in all and of the groups with most."""
        if not self.options.totals:
            return []
        found = self.faults()
        counts = tally([fault for _case, fault, _k in found])
        said = printed(counts) if self.options.json else f"audit total {worded(counts)}"
        groups = (self.most(at, found) for at in range(len(owners_of(self.lines[0], self.options))))
        return [self.total(), said, *(line for lines in groups for line in lines)]

    def ranking(self, _found):
        """The lines whose order ranks groups with as many faults."""
        return self.lines

    def most(self, at, found):
        """A line for each of the ten clients, keys or shown texts with most faults, by how many."""
        owner = lambda line: owners_of(line, self.options)[at]
        first = [(it[0], None) for it in [owner(self.lines[0])]]
        ranked = dict.fromkeys([*first, *map(owner, self.ranking(found))])
        numbers = {it: at for at, it in enumerate(ranked)}
        of, is_more = self.of_groups([(owner(case.lines[k]), fault) for case, fault, k in found])
        ranked = sorted(of, key=lambda it: (-len(of[it]), numbers[it]))
        return [self.group(*it, tally(of[it]), is_more) for it in ranked[:MOST]]

    def of_groups(self, faults):
        """The faults of each owner, and whether there are more: a whole audit counts all."""
        of = defaultdict(list)
        for owner, fault in faults:
            of[owner].append(fault)
        return of, False

    def group(self, member, text, counts, is_more=False):
        """The line of a client (of no member), or of a text, or of those without.

        At the end it may say that there are more than are counted.
        """
        if self.options.json:
            named = {member or "client": None if text is None else json.loads(text)}
            more = {"more": True} if is_more else {}
            named = named if member is None else {"members": named}
            return printed({**named, **counts, **more})
        name, parting = ("client", " ") if member is None else (printed(member), ":")
        whose = f"no {name}" if text is None else f"{name}{parting}{text}"
        return f"audit total {whose} {worded(counts)}{' more' * is_more}"

    def listed(self):
        """The faults that are listed."""
        return self.faults()[: None if self.options.all else not self.options.totals]


def texts_beside(line, options):
    """The members that are printed beside a line: its key, and what is shown, or None."""
    key = [] if options.key is None else [(options.key, line.key)]
    texts = [(name, None if it is None else printed(it)) for name, it in key]
    return texts + [(it, printed(line.said[it]) if it in line.said else None)
                    for it in options.show]


def owners_of(line, options):
    """What faults are grouped by: the client, by no member, and each member beside a line."""
    client = None if line.client is None else printed(line.client)
    return [(None, client), *texts_beside(line, options)]


def tally(faults):
    """How many faults there are, and of each kind."""
    return {"faults": len(faults), **{it: faults.count(it) for it in FAULTS}}


def worded(counts):
    """Counts as words; those that are not known are left out."""
    return " ".join(f"{name} {count}" for name, count in counts.items() if count is not None)


def may_be_one(client, other):
    """Whether two callers may be one client: who is not known may be anybody."""
    return client is None or other is None or client == other


def name_of(line):
    """The caller of a line."""
    if line.client is None:
        return "its caller"
    return f"client {printed(line.client)}"


def printed(value):
    """A name or an object as JSON that steers no terminal, parts no line, turns no text round."""
    text = json.dumps(value, ensure_ascii=False, separators=(",", ":"))
    return UNPRINTABLE.sub(lambda it: f"\\u{ord(it[0]):04x}", text)


# ---- the program


def options_of(words):
    """What is asked for by arguments of which none is refused."""
    parted = (it.split("=", 1) if it.startswith("--") else [it] for it in words)
    found, words = {}, iter([part for it in parted for part in it])
    for word in words:
        if word == "--":
            break
        if word in ("--complete", "--margin"):
            found[word[2:]] = int(next(words))
        elif word in ("--key", "--numbers"):
            found[word[2:]] = next(words)
        elif word == "--show":
            found["show"] = tuple(next(words).split(","))
        elif word.startswith("--"):
            found[word[2:]] = True
    is_short, is_json = found.pop("summary", False), found.get("json", False)
    is_all = found.pop("all", False) or is_json
    return Options(**found, all=is_all and not is_short, totals=is_all or is_short)


def judged(given, options=Options()):
    """How the program ends with these bytes: status, standard output, standard error."""
    try:
        log = Log(lines_of(given, options.key, options.numbers), options)
    except Refused as why:
        return 1, b"", f"fdb_audit: logs refused: {why}\n".encode()
    faults = log.faults()
    said = [*(case.texts(*it)[0] for case, *it in log.listed()), *log.totals()]
    out = "".join(f"{it}\n" for it in (said if faults else log.passed())).encode()
    if not faults:
        return 0, out, b""
    case, fault, k = faults[0]
    return 4, out, f"fdb_audit: audit fault: {fault} {case.own(k)}\n".encode()
