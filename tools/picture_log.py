"""Reads a log, and what `fdb_audit --json` said of it, for a picture."""
from bisect import bisect_right
from collections import defaultdict

from drawing import (DRAWING, SHOWING, START, Drawing, Fault, Line, Refused, column, counted,
                     end_of, heading, known_by_telling, known_by_time, quoted, rising, shown)
from picture_lines import NO_SUCH, calls_of
from picture_said import FAULTS, REASONS, ROLES, Said

# Each kind of call: at its bar, in the key, and in words.
KINDS = {
    "read": ("read", "read, and the version that it got", "read {}"),
    "commit": ("commit", "commit at a version", "committed {}"),
    "ask": ("ask", "commit version that was only asked for", "drew {}"),
    "report": ("report", "report of a version as committed", "reported {}"),
    "learn": ("learn", "a client learns what another one knew", "learnt what client {} knew"),
}
NOTES_OF_TIME = """Time goes from left to right: a bar from where a call began to where it ended, or
fading, as it may end at any time or never. Right of a dashed line, which stands {} the end of a
call that showed its version, that is known to all. A client knows its own earlier calls, too."""
NOTES_OF_TELLING = """The lines have no times: calls stand in the order of the log. A client knows
what its earlier calls showed, and by a learn what another one knew by then."""
NOTES = """A version is the number of a state of the database: a commit makes one, and a read sees
all up to the one that it got. A read must get none older than was known, a commit or an ask a newer
one. An ask only draws a version, which counts for later asks and commits alone. 'Line' and a number
mean that line of the log, counted from 1."""
NOTES_BY_KEY = "The dashed lines are those of the key at fault, and calls of other keys are pale."
NOTES_OF_WATCH = """A watch tells stale reads and commit versions that are too low, and no other
fault. 'At least' so late: what it no longer keeps may have ended before."""
NOTES_WHILE_WATCHED = """What is known to all is not drawn, as the watch has not said yet by which
margin it judges."""
# Of lines that a watch refused so many are named; and of so many pairs of calls it is found at once
# whether the one was known to the other's client.
MOST_NAMED, AT_ONCE = 10, 4_096


class Log:
    """The calls of a log, with what was said of them; its sentences are the audit's own."""

    def __init__(self, texts, said):
        self.said, self.count = Said(said), len(texts)
        self.asked = self.said.asked
        self.calls, self.refused = calls_of(texts, self.asked.key, self.said.is_watched)
        self.faults = self.said.faults_of(self.calls, self.count)
        self.has_times = bool(self.calls) and self.calls[0].has_times
        self.heard, self.learns = (set(), {}) if self.has_times else (self.heard_of(), self.told())
        lines = [self.line(at) for at in range(len(self.calls))]
        knew = " Known{} before it: {}."
        self.lines = [it._replace(words=it.words + knew.format(
            " or drawn" * (it.kind in DRAWING), version) * (version > 0 and it.kind != "learn"))
            for it, version in zip(lines, self.known(lines))]

    def known(self, lines):
        """What each call knew, as far as that can be said."""
        if self.asked.margin is None:
            return [0] * len(lines)
        if self.has_times:
            return known_by_time(lines, self.asked.margin, self.asked.start)
        return known_by_telling(lines, self.asked.start)

    def line(self, at):
        it, is_learn = self.calls[at], self.calls[at].kind == "learn"
        began, ended = (it.began, it.ended) if self.has_times else column(at)
        ending = "; its end is not known" if ended is None else f" to {ended}"
        when = f", from {began}{ending}" if self.has_times else ""
        caller = "a caller" if it.client is None else self.caller(at)
        value = quoted(it.value) if is_learn else it.value
        did = KINDS[it.kind][2].format(value) + self.beside(at)
        return Line(
            it.client, it.kind, f"from {shown(it.value)}" if is_learn else str(it.value), began,
            ended, self.name(at), f"{self.name(at).capitalize()}: {caller} {did}{when}.",
            "" if is_learn else it.kind, 0 if is_learn else it.value, it.source, it.key)

    def name(self, at):
        return f"line {self.calls[at].number}"

    def beside(self, at):
        it = self.calls[at]
        of = lambda name: it.key if name == self.asked.key else it.said[name]
        return "".join(f" {quoted(name)}:{quoted(of(name))}" for name in self.asked.members
                       if name in it.said)

    def caller(self, at):
        client = self.calls[at].client
        return "its caller" if client is None else f"client {quoted(client)}"

    def mention(self, at):
        it = self.calls[at]
        client = "" if it.client is None else f"{self.caller(at)}, "
        return f"{self.name(at)} ({client}{it.kind} {it.value}{self.beside(at)})"

    def ended(self, at, other):
        ago = self.calls[other].began - self.calls[at].ended
        return f"{self.mention(at)} had ended {ago:,} before {self.name(other)} began"

    def way(self, it):
        """How a version was known."""
        if it.by is None:
            return f"all began with {it.known}"
        if it.means == "own":
            return f"{self.mention(it.by)} is an earlier call of its client"
        if it.means == "learnt":
            return f"{self.name(it.teller)} had learnt of {self.mention(it.by)}"
        return self.ended(it.by, it.knower)

    def reason(self, it):
        """Why a fault stands."""
        call = self.calls[it.at]
        verb = {"read": "read", "report": "reported"}.get(call.kind, "drew")
        is_before = it.reason == "reported" and it.by == it.at
        said = REASONS["twice" if it.kind == "Twice" else "before" if is_before else it.reason]
        is_told = it.first is None or it.first == it.by and it.means == "ended"
        return f"{self.caller(it.at)} {verb} {call.value}{self.beside(it.at)}, " + said.format(
            known=it.known, way=self.way(it), other=it.other is not None and self.mention(it.other),
            late="but " if is_told else (
                f"{late_by(it)}: {self.ended(it.first, it.at)}, and "))

    def fault(self, it):
        (plain, means), learns = FAULTS[it.kind], self.learns.get((it.by, it.teller), [])
        way = [] if it.by is None else [it.by, *learns, it.knower]
        named = {name: [getattr(it, name)] for name in ROLES} | {"teller": learns}
        roles = {at: ROLES[name].format(known=it.known)
                 for name, its in named.items() for at in its if at is not None}
        links = [(*both, True) for both in zip(way, way[1:])]
        if any(self.lines[one].ended > self.lines[other].began for one, other, _ in links):
            raise ValueError
        if it.other is not None and it.by != it.at:
            links += filter(None, [self.link(it.other, it.at)])
        return Fault(
            f"{plain} at {self.name(it.at)}", f"{means} ({it.kind})", self.reason(it), it.at, roles,
            links, None if it.known is None else str(it.known), it.knower, late_by(it), it.is_least,
            it.first)

    def link(self, one, other):
        """What joins two calls: from the one that came before, if one did; None if that is not
        known."""
        for both in ((one, other), (other, one)):
            if self.had_ended(*both) if self.has_times else both in self.heard:
                return (*both, True)
        its = [self.lines[it] for it in (one, other)]
        # One whose end is not known may have ended as it began, and within the margin one may have
        # come before.
        is_sure = not self.has_times or max(it.began for it in its) <= min(map(end_of, its))
        return (one, other, False) if is_sure else None

    def had_ended(self, one, other):
        """Whether a call came before another, by their times."""
        ended, is_own = self.lines[one].ended, self.calls[one].client == self.calls[other].client
        is_own = is_own and self.calls[one].client is not None
        return ended is not None and (
            ended + (self.asked.margin or 0) < self.lines[other].began
            or is_own and (ended, one) < (self.lines[other].began, other))

    def heard_of(self):
        """Of the faults' calls and the others that they name those pairs of which the client of the
        second knew of the first: it was its own, or it had learnt of it."""
        pairs = [sorted((it.at, it.other)) for it in self.faults if it.other is not None]
        found = set()
        for first in range(0, len(pairs), AT_ONCE):
            asked, bits, knows = defaultdict(list), {}, defaultdict(int)
            for one, other in pairs[first:first + AT_ONCE]:
                asked[other].append(one)
                bits.setdefault(one, 1 << len(bits))
            for at, it in enumerate(self.calls):
                found.update((one, at) for one in asked.get(at, ()) if knows[it.client] & bits[one])
                told = knows[it.value] if it.kind == "learn" else 0
                knows[it.client] |= told | bits.get(at, 0)
        return found

    def told(self):
        """Of each teller of what a line showed the learns by which it came there, that one last."""
        found, learns = {}, [at for at, it in enumerate(self.calls) if it.kind == "learn"]
        tellers = defaultdict(set)
        for it in self.faults:
            if None not in (it.by, it.teller):
                tellers[it.by].add(it.teller)
        for by, its in tellers.items():
            came = {self.calls[by].client: None}
            for at in learns[bisect_right(learns, by):bisect_right(learns, max(its))]:
                if self.calls[at].value in came:
                    came.setdefault(self.calls[at].client, at)
            for teller in its:
                way = [teller]
                while (last := came.get(self.calls[way[-1]].value)) is not None:
                    way.append(last)
                found[by, teller] = way[::-1]
        return found

    def bands(self):
        """Where what is known to all rises, by key; without times nothing is known to all."""
        margin, of = self.asked.margin, {it.key: [] for it in self.lines} or {None: []}
        first = min((it.began for it in self.lines), default=0)
        for it in self.lines if self.has_times and margin is not None else ():
            if it.counts in SHOWING and it.ended is not None:
                why = f"{it.name} had ended{f' {margin:,} before' if margin else ''}"
                of[it.key].append((it.ended + margin, it.version, why))
        start = (first, self.asked.start, START)
        is_told = self.has_times and self.asked.complete is not None
        return {key: rising([start] * is_told + moments) for key, moments in of.items()}

    def notes(self):
        margin, is_watched = self.asked.margin, self.said.is_watched
        by_time = NOTES_OF_TIME.format(f"{margin:,} (the margin) behind" if margin else "at")
        notes = [by_time if self.has_times else NOTES_OF_TELLING, NOTES]
        notes[:1] = [NOTES_WHILE_WATCHED] if margin is None else notes[:1]
        return notes + [NOTES_BY_KEY] * self.asked.by_key + [NOTES_OF_WATCH] * is_watched

    def account(self):
        """What was found, and of a watch how far it came."""
        kinds, count, asked = [it.kind for it in self.calls], len(self.faults), self.asked
        told = [counted(kinds.count(it), it) for it in KINDS if it in kinds] or ["no lines"]
        by_key = f"; each {shown(asked.key)} is judged by itself" * asked.by_key
        found = counted(count, "fault") if count else "No fault"
        by_watch = " told by a watch" * self.said.is_watched
        said = [f"{found}{by_watch} in {', '.join(told)}{by_key}."]
        return "\n".join(said + [*self.watch()] * self.said.is_watched)

    def watch(self):
        """How far a watch came: what it left out, what it did not read, and what it counted."""
        early, read = self.said.total("early"), self.said.lines_read()
        if self.refused:
            numbers = ", ".join(map(str, self.refused[:MOST_NAMED]))
            more = ", .." * (len(self.refused) > MOST_NAMED)
            yield f"{counted(len(self.refused), 'refused line')} left out: {numbers}{more}."
        if early:
            judged = self.said.total("judged")
            yield f"{counted(early, 'line')} came early, of which {judged} were judged."
        if not self.said.is_ended:
            yield "The watch had not ended: some of the lines were not judged yet."
        elif read < self.count:
            yield f"It read {read:,} of the log's {counted(self.count, 'line')}."
        if self.said.watched:
            yield f"While it ran it counted, at last: {', '.join(self.said.watched)}."

    def drawing(self, name):
        faults = []
        for it in self.faults:
            try:
                faults.append(self.fault(it))
            except NO_SUCH:
                raise Refused(f"BadVerdict {it.number}: a fault without what it needs") from None
        return Drawing(heading("log", self.lines, name), self.account(), self.notes(),
                       "time" if self.has_times else "order", self.lines, [], self.bands(), faults,
                       KINDS)


def late_by(it):
    """How late a call was, by an end that may not be the first to make it so."""
    return f"{'at least ' * it.is_least}{it.late:,} too late" if it.late else ""
