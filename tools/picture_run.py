"""Reads the text of a run, which fdb_replay prints, for a picture: its replies become lines."""
import re
from bisect import bisect_right
from collections import Counter, defaultdict, deque
from types import SimpleNamespace

from drawing import (COLUMN, Band, Drawing, Line, Refused, column, counted, heading,
                     known_by_telling)

MOST_CLIENTS = 64
NUMBER = r"(?:0|[1-9]\d{0,19})"


def form(text):
    """Makes the form of a line, in which <name> is a number that has this name."""
    return re.compile(re.sub(r"(?<!\?P)<(\w+)>", lambda it: f"(?P<{it[1]}>{NUMBER})", text))


# Why a call is refused. A read that the lock turns away is none of these: the register answered it.
REFUSALS = {
    "Early": "a reask of a number beyond its client's next one",
    "Forgotten": "a reask of 0, or of a number that its client had given up",
    "Exhausted": "the next version would be above the last one",
    "NotIssued": "a report of a number under which its client had got no version",
    "MinAbove": "a report whose minimum is above its version",
    "BadCount": "a read for no transaction, or for too many",
    "BatchThrottled": "a read of batch priority where the batch limit is 0",
    "Full": "a read for which the queue of the GRV proxy had no room",
}
# What other words at bars and bands mean; and in whose order calls stand.
OTHERS = {
    "again": "an ask that got the commit version of an earlier one",
    "locked": "only lock-aware reads are answered, and all others locked out",
    "min": "the minimum known committed version, which a read got, or a report raised alone",
}
ORDER = """Clients of a round run side by side: calls stand in their client's order, reads and
reports as they took effect, commit versions as drawn. Bold: the live version, which reads get."""
RECORD = r"<version> (?P<lock>(?:un)?locked) (?P<metadata>none|[0-9a-f]{20})(?: min <minimum>)?"
CHANGE = r"(?P<change>raised|min raised|not raised)"
REPLY = r"<round> <client> <place> (?P<do>{}) "
# The forms of lines. What a call is, is the word in its reply, or else the name here.
FORMS = {
    "read": form(REPLY.format("grv") + RECORD + r"(?: used <used>)? pos <position>"
                 r"(?P<limits>(?: limit \S+ \d+ \d+)*)"),
    "locked": form(REPLY.format("grv") + "refused Locked <version> pos <position>"),
    "drawn": form(REPLY.format("ask|reask") + "prev <prev> version <version> ordinal <ordinal> "
                  "(?P<change>fresh|kept)"),
    "report": form(REPLY.format("report") + f"<version> {CHANGE} pos <position>"),
    "tell": form(REPLY.format("tell") + "<to> pos <position>"),
    "refused": form(REPLY.format("grv|ask|reask|report")
                    + rf"refused (?P<why>{'|'.join(REFUSALS)})(?: <expected>)?"),
    "audit": form("audit ok events <events> raised <raised> versions <versions>"),
    "history": form("history <index> client <client> call <call> (?:read|report) "
                    f"{RECORD}(?: {CHANGE})?"),
}
TEXTS = ("do", "lock", "metadata", "change", "why", "limits")
# Each kind of call: at its bar, in the key, and in words.
KINDS = {
    "read": ("read", "read, and the version that it got", "read {version}"),
    "locked": ("locked out", "read that the lock turned away",
               "read {version} and was turned away: the record is locked"),
    "raised": ("report", "report that raised the live committed version",
               "reported {version}, which raised the live committed version"),
    "min-raised": ("report", "report that raised the minimum known committed version alone",
                   "reported {version}, which raised the minimum known committed version alone"),
    "not-raised": ("report", "report that changed nothing", "reported {version}: nothing changed"),
    "fresh": ("ask", "commit version that was drawn", "drew {version}, after {prev}"),
    "kept": ("again", "commit version that was answered again", "got {version} again"),
    "tell": ("tell", "tell, learnt when the round is over", "told client {to} what it had seen"),
    "learn": ("learn", "what was told is learnt", "learnt what client {source.client} had seen"),
    "refused": ("", "call that was refused, and why", "called {do}, refused as {why}: {because}"),
}
# What is told of a call beside that, where it has it; a report's record is the one that it reports.
FURTHER = {
    "used": ", and uses {}, the minimum known committed version", "lock": "; its record: {}",
    "metadata": ", metadata version {}", "minimum": ", minimum {}",
    "limits": "; limits of its tags:{}", "position": "; position {}",
}
MAKING = ("raised", "min-raised")
EVENTS = ("read", "locked", "not-raised", *MAKING)
# What shows a client a version, and as which call of a log.
COUNTS = {"read": "read", "locked": "read", **dict.fromkeys(EVENTS[2:], "report")}
NOTES = (
    """Rounds go from left to right, and a tell is learnt when its round is over. A version is the
number of a state of the database. At a dashed line a report raised the live committed version; with
'locked' the record is locked, as far as the text tells.""",
)


class Text:
    """What a text says: the calls of each round and of each client, as replies and learns."""

    def __init__(self, texts):
        self.rounds, self.counts, self.last = defaultdict(list), Counter(), (-1,)
        self.events, self.listed = None, 0
        for self.number, self.text in enumerate(texts, 1):
            self.take()
        if self.events is None:
            self.refuse("Cut", "the text ends before the line of its audit")
        if 0 < self.listed < len(self.events):
            self.refuse("Cut", f"the history ends after {self.listed} of {len(self.events)} events")

    def refuse(self, name, what):
        raise Refused(f"{name} {self.number}: {what}: {self.text[:80]!r}")

    def take(self):
        for name, its in FORMS.items():
            if found := its.fullmatch(self.text):
                said = dict.fromkeys((*FURTHER, "change", "to", "why"))
                said |= {it: text if text is None or it in TEXTS else int(text)
                         for it, text in found.groupdict().items()}
                return getattr(self, name, self.reply)(SimpleNamespace(kind=name, **said))
        return self.refuse("BadLine", "no reply, audit or history")

    def reply(self, it):
        at = (it.round, it.client, it.place)
        if self.events is not None or at <= self.last:
            self.refuse("BadOrder", "this reply belongs before the line above")
        if it.client == it.to or max(it.client, it.to or 0) >= MOST_CLIENTS:
            self.refuse("BadLine", "there is no such client")
        if it.round > self.last[0]:
            self.end_round()
        it.kind, self.last = (it.change or it.kind).replace(" ", "-"), at
        self.add(it, f"line {self.number}")

    def add(self, it, name):
        it.name, it.call = name, self.counts[it.client]
        self.counts[it.client] += 1
        self.rounds[it.round].append(it)

    def end_round(self):
        """What clients were told in a round they learn when it is over, by a call for each tell."""
        for it in [it for it in self.rounds.get(self.last[0], ()) if it.kind == "tell"]:
            learn = {**vars(it), "kind": "learn", "client": it.to, "source": it}
            self.add(SimpleNamespace(**learn), f"learn of {it.name}")

    def of(self, *kinds):
        return [it for calls in self.rounds.values() for it in calls if it.kind in kinds]

    def audit(self, said):
        if self.events is not None:
            self.refuse("BadOrder", "there is a second audit")
        self.end_round()
        self.events = sorted(self.of(*EVENTS), key=by_history)
        counts = [len(it) for it in (self.events, self.of("raised"), self.of("fresh"))]
        if counts != [said.events, said.raised, said.versions]:
            self.refuse("BadAudit", "the replies have {}, {} and {}".format(*counts))

    def history(self, said):
        """Takes an event of the history, which says more of a record than the reply to a report."""
        if self.events is None or not said.index == self.listed < len(self.events):
            self.refuse("BadHistory", "no such event is due here")
        it, self.listed = self.events[self.listed], self.listed + 1
        record = ("lock", "metadata", "minimum")
        parts = ("client", "call", "version", "change", *record[:3 * (it.kind == "read")])
        if any(getattr(it, name) != getattr(said, name) for name in parts):
            self.refuse("BadHistory", "the replies have another event here")
        vars(it).update({name: getattr(said, name) for name in record})


def by_history(it):
    return it.position, it.kind not in MAKING, it.client, it.call


def in_order(calls):
    """The calls of a round: of each client in its order, events by the history, and learns last.

    Asks go by the chain, unless that would hold up an event.
    """
    logs = defaultdict(deque)
    for it in calls:
        logs[it.client].append(it)
    events = deque(sorted((it for it in calls if it.kind in EVENTS), key=by_history))
    asks = deque(sorted((it for it in calls if it.kind == "fresh"), key=lambda it: it.ordinal))
    queue = lambda it: events if it.kind in EVENTS else asks if it.kind == "fresh" else deque([it])
    while heads := [log[0] for log in logs.values() if log]:
        it = min(heads, key=lambda it: (
            it.kind == "learn", (queue(it)[0] is not it) * (1 + (it.kind in EVENTS))))
        queue(it).remove(it)
        logs[it.client].popleft()
        yield it


def label(it):
    """What stands at a call's bar beside the name of its kind."""
    forms = {"refused": "{why}", "tell": "to {to}", "learn": "from {source.client}",
             "read": "{version}" if it.used is None else "{used} min",
             "raised": "{version}{turn}", "min-raised": "{version} min"}
    return forms.get(it.kind, "{version}").format_map(vars(it))


def words(it):
    """What is said of a call: what it was, the record that it tells, and where it stands."""
    text = KINDS[it.kind][2].format_map({**vars(it), "because": REFUSALS.get(it.why)})
    text += "".join(form.format(getattr(it, name)) for name, form in FURTHER.items()
                    if getattr(it, name) not in (None, ""))
    return f"{it.name.capitalize()}: client {it.client} {text}. Round {it.round}."


def lines_of(text, columns):
    """The calls as lines."""
    calls = [it for calls in text.rounds.values() for it in calls]
    places = {it.name: at for at, it in enumerate(calls)}
    lines = [Line(str(it.client), it.kind, label(it), *column(columns[it.name]), it.name, words(it),
                  COUNTS.get(it.kind, ""), getattr(it, "version", 0),
                  places[it.source.name] if it.kind == "learn" else None) for it in calls]
    return [it._replace(words=f"{it.words} Its client had seen {version}." if version else it.words)
            for it, version in zip(lines, known_by_telling(lines, 0))]


def bands(text, columns):
    """The records, each from the report that raised it on, which is told if it turns the lock."""
    raised = sorted(text.of("raised"), key=lambda it: it.position)
    # (a report that raises the minimum alone leaves the lock as it is)
    starts = [it.position for it in raised]
    told = {bisect_right(starts, it.position): it.kind == "locked" or it.lock == "locked"
            for it in text.of("read", "locked", "raised") if it.kind == "locked" or it.lock}
    locked = {at for at, is_locked in told.items() if is_locked}
    for at, it in enumerate(raised):
        is_turned = told.get(at + 1, at in locked) != (at in locked)
        it.turn = (" unlocks" if at in locked else " locks") * is_turned
    first = [it.version for it in text.of("read", "locked") if it.position == 0]
    first += [it.version for it in text.of("fresh") if it.ordinal == 0]
    begins = [(0, first[0] if first else None)]
    begins += [(columns[it.name] * COLUMN, it.version) for it in raised]
    return sorted(Band(left, f"{version}{' locked' * (at in locked)}", (
        f"From here on the live committed version is {version}"
        f"{', and the record is locked' * (at in locked)}."), int(at in locked))
        for at, (left, version) in enumerate(begins) if version is not None)


def account(text, lines, bands):
    """What happened in a run, in whose order it stands, and what the words there mean."""
    count = {kind: len(text.of(kind)) for kind in KINDS}
    drawn, raised = ([it.version for it in text.of(kind)] for kind in ("fresh", "raised"))
    why = Counter(it.why for it in text.of("refused")).items()
    reports = counted(sum(count[it] for it in EVENTS[2:]), "report")
    said = [
        count["read"] and f"{counted(count['read'], 'read')} answered",
        count["locked"] and f"{counted(count['locked'], 'read')} locked out",
        drawn and f"{counted(len(drawn), 'commit version')} drawn, {min(drawn)} to {max(drawn)}",
        raised and f"{len(raised)} of {reports} raised the live committed version to {max(raised)}",
        why and f"{counted(count['refused'], 'call')} refused "
        f"({', '.join(f'{name} {many}' for name, many in why)})",
    ]
    said_of = (*(f"{KINDS[it.kind][0]} {it.label}" for it in lines), *(it.label for it in bands))
    used = {word for it in said_of for word in it.split()}
    means = (f"{word}: {it}." for word, it in {**REFUSALS, **OTHERS}.items() if word in used)
    what = filter(None, [counted(len(text.rounds), "round"), "; ".join(filter(None, said))])
    return "\n".join([": ".join(what) + ".", " ".join(ORDER.split()), *means])


def run_drawing(texts, name=None):
    text, columns, rounds = Text(texts), {}, []
    for number, calls in text.rounds.items():
        first = len(columns)
        columns |= {it.name: first + at for at, it in enumerate(in_order(calls))}
        rounds.append([first * COLUMN, len(columns) * COLUMN, f"round {number}"])
    records, lines = bands(text, columns), lines_of(text, columns)
    return Drawing(heading("run", lines, name), account(text, lines, records), NOTES, "order",
                   lines, rounds, {None: records}, [], KINDS)
