"""Reads what `fdb_audit --json` said of a log, or has told of one that grows, for a picture."""
import json
from types import SimpleNamespace

from drawing import Refused, shown
from picture_lines import NO_SUCH, name_in, number_in

# The faults: in plain words, and what each means.
FAULTS = {
    "Order": ("Stale read", "it got a version below what was known"),
    "Wrong": ("Wrong version read", "it was not there yet, or never"),
    "NotAbove": ("Commit version too low", "it is not above all that was known"),
    "Twice": ("Commit version drawn twice", "two calls got the same one"),
    "Stray": ("Stray report", "its client had not got the version that it reported"),
}
# How the reason of a fault is told, and of two of a kind of their own; and what it needs.
REASONS = {
    "known": "{late}{known} was known: {way}", "drawn": "which {other} drew",
    "reported": "which {other} reported when {known} was known: {way}",
    "unreported": "which nobody reported", "undrawn": "which nobody drew",
    "before": "which was reported only after this: {way}", "twice": "and so did {other}",
}
NEEDED = {"known": ("known",), "reported": ("known", "reported"), "drawn": ("drawn",)}
# What the lines of a fault are to it, by their members: in the order in which they are told.
ROLES = {"first": "First to end of those that make it late", "by": "Shows {known}",
         "teller": "Learnt of {known}", "reported": "First to report it", "drawn": "Got it too",
         "at": "At fault"}


class Said:
    """What was said of a log: by which arguments, how many lines were read, and the faults.

    A watch that was stopped and went on has several totals, and one that has not ended may have
    none: then its arguments are not known, nor what is known to all.
    """

    def __init__(self, texts):
        self.objects, self.totals, self.counts, number = [], [], [], 0
        self.asked, self.watched, self.is_ended, self.members = None, None, False, []
        for number, text in enumerate(texts, 1):
            if text.startswith("fdb_audit: "):
                # (it stood on standard error)
                continue
            try:
                self.take(number, text, json.loads(text))
            except NO_SUCH:
                raise no_verdict(number, text) from None
        if self.asked is None and self.watched is not None:
            self.asked = arguments_of({"margin": None, "by_key": False, "members": self.members})
        follow = getattr(self.asked, "follow", None)
        self.is_watched = self.watched is not None or follow is not None
        if self.asked is None or not self.is_whole():
            why = "no totals, or not each of the faults that they count"
            raise Refused(f"Cut {number}: {why}")

    def take(self, number, text, it):
        """Takes an object. Turns of a history, and others that are not known, are passed over."""
        if "fault" in it.keys():
            self.objects.append((number, text, it))
            self.members = [*it["at"].get("members", ())]
        if "arguments" in it:
            self.asked = arguments_of(it["arguments"])
        if "total" in it:
            found = it["total"].items()
            counts = {name: number_in(count) for name, count in found if count is not None}
            self.totals.append((number, text, counts))
        if "watched" in it:
            self.watched = [*worded(it["watched"])]
        elif "faults" in it and not it.keys() & {"client", "members"}:
            self.counts.append(number_in(it["faults"]))
        self.is_ended = bool(self.totals) and not it.keys() & {"fault", "watched"}

    def is_whole(self):
        """Whether all faults are there that were counted; what a watch tells now is not yet."""
        told = len(self.objects)
        if self.is_watched and not self.is_ended:
            return sum(self.counts) <= told
        return told == (sum(self.counts) if self.is_watched else (self.counts or [None])[-1])

    def total(self, name):
        return sum(it.get(name, 0) for _number, _text, it in self.totals)

    def lines_read(self):
        return self.total("lines") + self.total("refused")

    def faults_of(self, calls, count):
        """The faults of a log of so many lines, and these calls: a watch may have read some."""
        places, found = {it.number: place for place, it in enumerate(calls)}, []
        for number, text, it in self.totals[-1:]:
            read = self.lines_read()
            if read > count or read < count and not self.is_watched:
                raise no_verdict(number, text)
        for number, text, said in self.objects:
            try:
                it = fault_of(said, calls, places)
                is_bound = self.is_watched and it.late > (self.asked.follow or 0)
            except NO_SUCH:
                raise no_verdict(number, text) from None
            it.is_least, it.number = bool(said.get("at_least", is_bound)), number
            found.append(it)
        return found


def no_verdict(number, text):
    why = "not what fdb_audit --json says of this log"
    return Refused(f"BadVerdict {number}: {why}: {text[:80]!r}")


def arguments_of(said):
    """What was asked for: of a watch also how far lines may be behind."""
    it = SimpleNamespace(**{"complete": None, "follow": None, **said})
    it.start = number_in(it.complete or 0)
    for name in ("margin", "follow"):
        setattr(it, name, None if getattr(it, name) is None else number_in(getattr(it, name)))
    it.members = [*map(name_in, it.members)]
    it.key = it.members[0] if it.by_key else None
    return it


def worded(counts):
    """Counts in words, of an object and those that are in it."""
    for name, it in counts.items():
        if isinstance(it, dict):
            yield from worded(it)
        else:
            yield f"{shown(name).replace('_', ' ')} {f'{it:,}' if type(it) is int else shown(it)}"


def fault_of(said, calls, places):
    """A fault, with the places of its lines."""
    it = SimpleNamespace(kind=said["fault"], **{
        name: said.get(name) for name in ("reason", "known", "means")})
    it.late = said.get("late") or 0
    for name in ROLES:
        setattr(it, name, place_of(said.get(name), calls, places))
    needed = [getattr(it, name) for name in ("at", *NEEDED.get(it.reason, ()))]
    if None in needed or it.kind not in FAULTS or it.reason not in REASONS or it.late < 0:
        raise ValueError
    it.first = it.first if it.late else None
    it.knower = it.at if it.reported is None else it.reported
    it.other = it.drawn if it.reported is None else it.reported
    return it


def place_of(said, calls, places):
    """The place of a line that an object has as the log has it; of none, None."""
    if said is None:
        return None
    it = calls[places[said["line"]]]
    wanted = {"client": it.client, it.kind: it.value, "began": it.began, "ended": it.ended}
    if any(said.get(name) != value for name, value in wanted.items()):
        raise ValueError
    return places[it.number]
