"""What the program is to say of a script: the plainest run, one call after the other.

It is written from the definitions and not from the program: the live record is folded over the
reports, and the answers to requests for commit versions are one list that is searched from its end.
"""
from typing import NamedTuple, Optional

from harness import done, refused
from reader import LAST_VERSION, Refused, script_of

LONGEST_STEP = 5_000_000
MOST_COUNT, IDLE_BURST = 100_000, 10
FULL = "refused Full"
UNCHANGED = "not raised"


class Record(NamedTuple):
    version: int
    locked: bool
    metadata: Optional[bytes]
    min_known: int = 0

    def __str__(self):
        lock, metadata = (
            "locked" if self.locked else "unlocked",
            "none" if self.metadata is None else self.metadata.hex(),
        )
        return (
            f"{self.version} {lock} {metadata}{f' min {self.min_known}' if self.min_known else ''}"
        )

    def after(self, reported):
        """Returns the record after a report: of the greater version, with the greater minimum."""
        newest = reported if reported.version > self.version else self
        return newest._replace(min_known=max(self.min_known, reported.min_known))

    def change(self, reported):
        """Returns how a report of this record changes it, in the words of its line."""
        if reported.version > self.version:
            return "raised"
        return "min raised" if reported.min_known > self.min_known else UNCHANGED


class Answer(NamedTuple):
    """A commit version that was drawn, for a commit proxy's request."""

    ordinal: int
    proxy: int
    num: int
    processed: int
    prev: int
    version: int
    at: int

    def __str__(self):
        return f"prev {self.prev} version {self.version} ordinal {self.ordinal}"


class Event(NamedTuple):
    """A call that the register answered, with the position then.

    `change` is what a report did, and None for a read.
    """

    client: int
    call: int
    position: int
    record: Record
    change: Optional[str]

    @property
    def is_change(self):
        return self.change not in (None, UNCHANGED)

    def __str__(self):
        what = (
            f"read {self.record}" if self.change is None else f"report {self.record} {self.change}"
        )
        return f"client {self.client} call {self.call} {what}"


class Log:
    """A client's number of calls, the position it has come to, and its versions by number."""

    def __init__(self):
        self.calls, self.position, self.versions = 0, 0, {}


class Run:
    """A run of a script. Each kind of command has a method, which returns the end of its line."""

    def __init__(self, script):
        self.epoch_end, self.recovery, self.rounds = (
            script.epoch_end, script.recovery, script.rounds
        )
        self.normal, self.batch = script.normal, script.batch
        self.throttles = {(it["priority"], it["tag"]): it for it in script.throttles}
        self.chain, self.events = [], []
        self.record, self.position = Record(script.recovery, False, None), 0
        self.logs = [Log() for _ in range(script.clients)]

    def answered(self, client, record, change):
        """Notes that the register answered a client's call, which then stands at its position."""
        log = self.logs[client]
        log.position = self.position
        self.events.append(Event(client, log.calls, self.position, record, change))

    def turned_away(self, it):
        """Returns why a read may not wait in a queue, whoever else waits there, or None."""
        is_batch = it.priority == "batch"
        most = min(MOST_COUNT, self.normal + IDLE_BURST) if is_batch else MOST_COUNT
        if not 1 <= it.count <= most:
            return "BadCount"
        return "BatchThrottled" if is_batch and self.batch == 0 else None

    def grv(self, it):
        why = self.turned_away(it)
        if why is not None:
            return f"refused {why}"
        self.answered(it.client, self.record, None)
        if self.record.locked and not it.lock_aware:
            return f"refused Locked {self.record.version} pos {self.position}"
        held = [self.throttles.get((it.priority, tag)) for tag in it.tags]
        limits = [
            f" limit {one['tag']} {one['rate']} {one['expires']}"
            for one in held
            if one and one["expires"] > it.at
        ]
        used = f" used {self.record.min_known}" if it.use_min else ""
        return f"{self.record}{used} pos {self.position}{''.join(limits)}"

    def ask(self, it):
        return self.drawn(it.client, self.latest(it.client) + 1, it)

    def reask(self, it):
        return self.drawn(it.client, it.num, it)

    def latest(self, proxy):
        """Returns the number of a commit proxy's last answer, or 0."""
        return next((answer.num for answer in reversed(self.chain) if answer.proxy == proxy), 0)

    def kept(self, proxy, num):
        """Returns the answer under this number, unless its proxy has said since that it is done."""
        for answer in reversed(self.chain):
            if answer.proxy == proxy and answer.num == num:
                return answer
            if answer.proxy == proxy and answer.processed >= num:
                return None
        return None

    def drawn(self, proxy, num, it):
        """Answers a request for a commit version; a client is the commit proxy of its number."""
        expected = self.latest(proxy) + 1
        if num > expected:
            return f"refused Early {expected}"
        if num < expected:
            answer = self.kept(proxy, num)
            if answer is None:
                return "refused Forgotten"
            return f"{answer} kept"
        prev, version = self.next_version(it.at)
        if version > LAST_VERSION:
            return "refused Exhausted"
        self.chain.append(Answer(len(self.chain), proxy, num, it.processed, prev, version, it.at))
        self.logs[proxy].versions[num] = version
        return f"{self.chain[-1]} fresh"

    def next_version(self, at):
        """Returns the last version, and the one that a fresh request of this moment would get."""
        if not self.chain:
            return self.epoch_end, self.recovery
        last = self.chain[-1]
        return last.version, last.version + max(1, min(LONGEST_STEP, at - last.at))

    def report(self, it):
        version = self.logs[it.client].versions.get(it.num)
        if version is None:
            return "refused NotIssued"
        if it.min_known > version:
            return "refused MinAbove"
        return self.reported(it.client, Record(version, it.locked, it.metadata, it.min_known))

    def reported(self, client, record):
        """Takes a client's report of a record.

        A position is the number of reports that changed the record.
        """
        change = self.record.change(record)
        self.record = self.record.after(record)
        self.position += change != UNCHANGED
        self.answered(client, record, change)
        return f"{record.version} {change} pos {self.position}"

    def tell(self, it):
        return f"{it.to} pos {self.logs[it.client].position}"

    def called(self, it):
        """Makes a client's call, and returns the end of its line."""
        said = getattr(self, it.do)(it)
        self.logs[it.client].calls += 1
        return said

    def found_full(self, it):
        """Notes a read that found its queue full, as none does that comes alone."""
        self.logs[it.client].calls += 1
        return FULL

    def learned(self, told):
        """Notes what a round's tells came to, the receiver and position of each, at its end."""
        for to, position in told:
            log = self.logs[to]
            log.calls, log.position = log.calls + 1, max(log.position, position)

    def played(self):
        """Plays the rounds, in each one client after the other; returns the replies."""
        lines = []
        for number, commands in enumerate(self.rounds):
            told = []
            for place, it in in_order(commands):
                lines.append(line_of(number, place, it, self.called(it)))
                if it.do == "tell":
                    told.append((it.to, self.logs[it.client].position))
            self.learned(told)
        return lines

    def audit(self):
        raised = sum(it.change == "raised" for it in self.events)
        return f"audit ok events {len(self.events)} raised {raised} versions {len(self.chain)}"

    def history(self):
        """Returns the events by position: first the change, then others by client and call."""
        ordered = sorted(
            self.events, key=lambda it: (it.position, not it.is_change, it.client, it.call)
        )
        return [f"history {number} {event}" for number, event in enumerate(ordered)]


def in_order(commands):
    """Returns a round's commands with their places, in the order in which their lines stand."""
    return sorted(enumerate(commands), key=lambda placed: placed[1].client)


def line_of(number, place, it, said):
    return f"{number} {it.client} {place} {it.do} {said}"


def expected(given, history=False):
    """Returns how the program is to end on these bytes where one call is made after the other."""
    try:
        return done(printed(script_of(given), history))
    except Refused as why:
        return refused(str(why))


def printed(script, history=False):
    """Returns the text of a script's plainest run."""
    run = Run(script)
    return text_of([*run.played(), run.audit(), *(run.history() if history else [])])


def text_of(lines):
    return "".join(f"{line}\n" for line in lines).encode()
