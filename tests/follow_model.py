"""What fdb_audit has to tell with --follow of a log that grows, by the audit's model."""
import json
import re
from collections import defaultdict
from typing import NamedTuple

import audit_logs
from audit_lines import CALLS, line_of, refusal
from audit_logs import FAULT, FAULTY, OK, REFUSED
from audit_model import Case, Log, options_of, printed, worded
from harness import Ran, fault_of
from reader import Refused

# The kinds of faults that are told.
WATCHED = ("Order", "NotAbove")
# Of how many clients, keys or texts a watch counts the faults.
ROOM = 65_536
# How the object begins that tells how far a log was followed, and the words.
PROGRESS, PROGRESS_WORDS = b'{"watched":{', b"fdb_audit: watched "
# How many lines began before what was settled, and how many of these were judged, as it is printed.
EARLY = re.compile(rb'\bearly"?[: ](\d+)(?:,?"? ?judged"?[: ](\d+))?')
# One that did, as it is said on standard error, one of which another is ahead, and the last that
# came early, as that ends.
SAID_EARLY = "early line {}: it began {} before what had been settled; {} so far: " \
    "--follow is too small, or a clock is ahead"
SAID_AHEAD = "a clock is ahead: above line {} a line of another client ended {} after it; " \
    "{} so far: it is not believed"
SAID_LAST = "logs refused: Early {}: it began before what had been settled"
EARLY_LINE, LAST_EARLY = (re.compile("fdb_audit: " + it.replace("{}", r"(\d+)"))
                          for it in (SAID_EARLY, SAID_LAST))


class Warned(NamedTuple):
    """A line of which it is said how long before what was settled it began, or by how much another
    is ahead of it."""
    number: int
    by: int
    count: int
    said: str = SAID_EARLY

    def __str__(self):
        return self.said.format(*self[:3])


def others_end(line, above):
    """The newest end of lines of other clients that are known, if one is known."""
    return max((it.ended for it in above if it.ended is not None
                and it.client not in (None, line.client)), default=None)


def believed(lines, behind):
    """For each line the newest end that is believed when it comes, as docs/LOG.md has it."""
    newest = 0
    for place, line in enumerate(lines):
        yield newest
        end, vouched = line.ended or 0, others_end(line, lines[:place])
        if vouched is None:
            vouched = max((it.ended or 0 for it in lines[:place]), default=0)
        known = max(newest, vouched)
        newest = known if end > known + behind else max(newest, end)


def ahead(lines, behind):
    """For each line by how much another above is found to be ahead of it, or 0."""
    found = 0
    for place, line in enumerate(lines):
        others = others_end(line, lines[:place]) or 0
        is_so = line.ended is not None and others > max(found, line.ended + behind)
        found = others if is_so else found
        yield others - line.ended if is_so else 0


class Grown(Case):
    """The lines of a log that grows, or of a key, with what is asked of them."""

    def __init__(self, rows, options, at, behind):
        self.behind, self.told = behind, None
        super().__init__(rows, options, at)

    def lates(self, fault, k):
        """How late a call may be said to be: exactly; or, where that is more than lines may be
        behind, by any line that outdates it and had ended so long before it began."""
        exact, began = super().late(fault, k), self.lines[k].began
        yield exact
        for end, _, j in self.outdating(fault, k) if exact and exact[1] > self.behind else ():
            if j != k and began - end > self.behind:
                yield j, began - end

    def late(self, fault, k):
        return self.told

    def texts(self, fault, k):
        """All lines that may be written of a fault."""
        for self.told in self.lates(fault, k):
            yield from super().texts(fault, k)


class Followed(Log):
    """What is told of a text that grows, of which lines begin so far behind the newest end."""

    def __init__(self, given, words):
        self.options, self.behind = asked_of(words)
        rows, places, refused = list(rows_of(given, self.options.key)), defaultdict(list), {}
        for place, row in enumerate(rows):
            if type(row) is str:
                refused[place + 1] = f"logs refused: {refusal(place + 1, row)}"
            else:
                places[row.key].append(place)
        self.lines, self.refused = [row for row in rows if type(row) is not str], refused
        self.cases = [Grown(rows, self.options, at, self.behind) for at in places.values()]
        self.early, self.judged, self.last_early, self.warned = 0, 0, None, []
        numbers = (place + 1 for place, row in enumerate(rows) if type(row) is not str)
        found = [it for it in zip(numbers, ahead(self.lines, self.behind)) if it[1]]
        self.ahead = [Warned(*it, count, SAID_AHEAD) for count, it in enumerate(found, 1)]
        self.is_empty = not rows
        found = [it for it in super().faults() if it[1] in WATCHED]
        # By kind and number of the line.
        self.told = {(fault, case.at[k] + 1): (case, fault, k) for case, fault, k in found}
        self.is_listed = self.options.all or not self.options.totals

    def faults(self):
        return list(self.told.values())

    def counts(self):
        kinds = [line.kind for line in self.lines]
        counts = {"lines": len(kinds), **{f"{it}s": kinds.count(it) for it in CALLS}}
        counts = {**counts, "refused": len(self.refused), "early": self.early}
        counts = {**counts, "judged": self.judged} if self.early else counts
        return {**counts, "ahead": len(self.ahead)} if self.ahead else counts

    def head(self):
        if self.options.json or not self.early:
            return super().head()
        return [f"audit early {worded(self.counts())}"]

    def total(self):
        asked = self.options
        if not asked.json:
            return super().total()
        members = [*([] if asked.key is None else [asked.key]), *asked.show]
        return printed({"total": self.counts(), "arguments": {
            "follow": self.behind, "margin": asked.margin, "by_key": asked.key is not None,
            "members": members}})

    def ranking(self, found):
        """Of clients, keys and texts nothing is kept but those of faults, as they are told."""
        return [case.lines[k] for case, _, k in found]

    def of_groups(self, faults):
        """Those of as many clients, keys or texts as there is room for: the first that come."""
        of, is_more = super().of_groups(faults)
        beyond = [owner for owner in of if owner[1] is not None][ROOM:]
        for owner in beyond:
            del of[owner]
        return of, bool(beyond)

    def ended(self, said, first):
        """How the program ends that told these lines, and this fault first, if any."""
        said = [*said, *(self.totals() if self.told else self.head())]
        doubled = [it for it in self.ahead if it.count & it.count - 1 == 0]
        warnings = sorted([*self.refused.items(), *((it.number, it) for it in self.warned),
                           *((it.number, it) for it in doubled)], key=lambda it: it[0])
        last = [f"logs refused: {refusal(0, 'Empty')}"] if self.is_empty else [
            *self.refused.values()][-1:]
        if not last and self.last_early is not None:
            last = [SAID_LAST.format(self.last_early)]
        last = [f"audit fault: {first[0]} {first[1]}"] if self.told else last
        err = "".join(f"fdb_audit: {it}\n" for it in [*(it for _, it in warnings), *last])
        status = FAULTY if self.told else REFUSED if last else OK
        return Ran(status, "".join(f"{it}\n" for it in said).encode(), err.encode())


def rows_of(given, member):
    """Each line of a text that is read by itself, or why it is refused."""
    texts, names = given.split(b"\n"), set()
    for text in texts if texts[-1] else texts[:-1]:
        try:
            line = line_of(text, names, True, member)
            names.add(line.client)
            yield line
        except Refused as why:
            yield str(why)


def asked_of(words):
    """What is asked for, and how far lines may be behind."""
    parts = (it.split("=", 1) if it.startswith("--") else [it] for it in words)
    parts = [part for its in parts for part in its]
    at = parts.index("--follow")
    return options_of([*parts[:at], *parts[at + 2:]]), int(parts[at + 1])


def judged_as(given, words):
    """How the program ends, where it has one sentence for each fault and tells them by line."""
    if not any(word.startswith("--follow") for word in words):
        return audit_logs.judged_as(given, words)
    log = Followed(given, words)
    said = [next(case.texts(*it)) for case, *it in log.faults() if log.is_listed]
    return log.ended(said, next(iter(log.told), None))


def progress_of(out):
    """How far it is told that a log was followed: by objects."""
    return [json.loads(it)["watched"] for it in out.splitlines() if it.startswith(PROGRESS)]


def without_progress(ran):
    """A run without that, and without the words on standard error."""
    out, err = (b"".join(it for it in text.splitlines(True) if not it.startswith(begins))
                for text, begins in ((ran.out, PROGRESS), (ran.err, PROGRESS_WORDS)))
    return ran._replace(out=out, err=err)


def progress_wrong(log, told):
    """What is wrong with how far it is told that a log was followed, or None."""
    if not log.options.json:
        return f"{told}" if told else None
    if not told:
        return "how far it was followed is not told"
    for one, other in zip(told, told[1:]):
        if any(one[it] > other.get(it, 0) for it in one if it not in ("open", "kept")):
            return f"{one} is told before {other}"
    ends = [it.ended or 0 for it in log.lines]
    for it in told:
        wrong = [name for name, most in log.counts().items() if it.get(name, 0) > most]
        is_so = it["open"] <= it["kept"] and it["settled_to"] <= it["newest_end"]
        if wrong or not is_so or it["newest_end"] not in (0, *ends):
            return f"{it} is told of {log.counts()}"
    return None


def why_wrong(given, words, ran, most_early=0, is_run=True):
    """What is wrong with how a run ended, or the model's text, or None.

    Where lines may have begun before what was settled, at most so many did, and of the faults any
    may be missing.
    """
    progress, ran, log = progress_of(ran.out), without_progress(ran), Followed(given, words)
    said = ran.out.decode().split("\n")[:-1]
    for case in log.cases if most_early else ():
        # What was settled may be later than where a line begins.
        case.behind = 0
    names = [name_in(it) for it in map(FAULT.match, ran.out.split(b"\n")) if it]
    for name, line in zip(names, said):
        case, *it = log.told.get(name, [None])
        is_so = case and line in case.texts(*it)
        if not is_so and not (most_early and was_told(given, words, name, line)):
            return f"{line!r} is not among {case and list(case.texts(*it))}"
    missing = set(log.told) - set(names) if log.is_listed else set()
    if len(set(names)) < len(names) or missing and not most_early:
        return f"it tells {sorted(names)} of {sorted(log.told)}"
    if log.is_listed:
        log.told = {name: log.told[name] for name in names}
    wrong = early_wrong(log, ran, most_early) or is_run and progress_wrong(log, progress)
    if wrong:
        return wrong
    # With totals alone standard error tells which fault was the first.
    first = names[0] if names else tuple(ran.err.decode().split()[-2:])
    is_known = names or not log.told or first in [(it, str(number)) for it, number in log.told]
    if not is_known:
        return f"{first} is told"
    ended = log.ended(said[:len(names)], first)
    if log.refused and not log.told and ran.err + ended.err.splitlines(True)[-1] == ended.err:
        # The last line of all may be refused as it ends.
        ran = ran._replace(err=ended.err)
    if not log.is_listed:
        # In which order faults were told it is not said.
        ran, ended = (it._replace(out=sorted(it.out.splitlines())) for it in (ran, ended))
        return None if ran == ended else f"{ran} in place of {ended}"
    return fault_of(ran, ended)


def early_wrong(log, ran, most_early):
    """What is wrong with what is said of early lines, or None; the log has it then."""
    counts, lines = EARLY.search(ran.out), ran.err.decode().splitlines()
    log.warned = [Warned(*map(int, it.groups())) for it in map(EARLY_LINE.fullmatch, lines) if it]
    last = LAST_EARLY.fullmatch(lines[-1]) if lines else None
    log.last_early = int(last[1]) if last else None
    # Of a fault alone it is not said how many lines came early.
    said = [it.count for it in log.warned]
    log.early, log.judged = (int(it or 0) for it in counts.groups()) if counts else (
        max(said, default=0), 0)
    if not log.judged <= log.early <= most_early:
        return f"{log.early} came early, {log.judged} were judged: {most_early} are the most"
    if [it for it in range(1, log.early + 1) if it & it - 1 == 0] != said:
        return f"of {log.early} early lines it is said {said}"
    numbers = [it.number for it in log.warned]
    is_last = log.last_early is None or numbers[-1] <= log.last_early and (
        log.early not in said or numbers[-1] == log.last_early)
    taken = set(range(1, len(log.lines) + len(log.refused) + 1)) - set(log.refused)
    is_taken = {*numbers, log.last_early or numbers[0]} <= taken if numbers else not last
    if numbers != sorted(set(numbers)) or not (is_taken and is_last):
        return f"{numbers} came early, and last {log.last_early}, of {sorted(taken)}"
    return None if all(it.by > 0 for it in log.warned) else f"{log.warned}"


def was_told(given, words, name, line):
    """Whether a line may be written of a fault before more comes, which may begin too early."""
    rows = given.splitlines(keepends=True)
    for count in range(name[1], len(rows)):
        log = Followed(b"".join(rows[:count]), words)
        for it in log.cases:
            it.behind = 0
        case, *it = log.told.get(name, [None])
        if case and line in case.texts(*it):
            return True
    return False


def name_in(match):
    """The kind of a fault, and the number of its line."""
    fault, line = b" ".join(it for it in match.groups() if it).decode().split()
    return fault, int(line)
