"""Whether a text is lawful: whether a schedule of a script's clients and GRV proxies gives it.

The clients of a round race, so that most scripts have many lawful texts. A text says where its
calls stood: a commit version by its ordinal, a call that the register answered by its position. So
a judge looks for an order of the calls, each client's in its own order and round after round, in
which the plainest run answers each call as the text says. It takes the calls one by one: each that
changes nothing for others as soon as the run is where its line says; a report that changes the
record once no other call of the round is to be answered at the position that it leaves; and a fresh
commit version where nothing else can go on. None of these steps shuts out an order that the one
before allowed, so where they stop short there is none.

The one reply that such an order does not explain is a read that found its queue full. `crowd_fault`
asks what has to be so where there is one: enough reads of other clients, of its priority or above,
that can have waited for the same proxy meanwhile and did not find it full in their turn. It refuses
nothing that a schedule gives, but may accept a text in which several reads found their queues full
and each could have, though not all in one schedule.
"""
import re
from bisect import bisect_left
from collections import Counter, defaultdict, deque
from typing import NamedTuple

from harness import DONE, Ran, fault_of, refused, without_history
from model import FULL, LAST_VERSION, Run, in_order, line_of, printed
from reader import Refused, script_of

RECORD = r"\d+ (?:un)?locked \w+(?: min \d+)?(?: used \d+)?"
POSITION = re.compile(
    rf"(?:\d+ (not |min )?raised|refused Locked \d+|{RECORD}) pos (\d{{1,20}})(?= |$)"
)
ORDINAL = re.compile(r"prev \d+ version \d+ ordinal (\d{1,20}) fresh$")
RANKS = {"batch": 0, "default": 1, "system": 2}


class Unlawful(Exception):
    """Says why no schedule gives a text."""


class Call(NamedTuple):
    """A command with its line.

    `when` says where the line lets it stand, and `at` the number that goes with that.
    """

    it: object
    place: int
    line: str
    when: str
    at: int


def stood(it, said):
    """Returns where the end of a line says that its call stood."""
    position, ordinal = POSITION.match(said), ORDINAL.match(said)
    if it.do in ("grv", "report") and position:
        return "changes" if is_change(it, position) else "at a position", int(position[2])
    if it.do in ("ask", "reask") and ordinal:
        return "draws", int(ordinal[1])
    if it.do in ("ask", "reask") and said == "refused Exhausted":
        return "exhausted", 0
    return ("full" if it.do == "grv" and said == FULL else "anywhere"), 0


def is_change(it, position):
    """Whether this is the position of a report that changed the record."""
    return it.do == "report" and position[1] != "not "


class Judge:
    """Looks for an order of the calls in which a run answers them as a text says."""

    def __init__(self, script, proxies):
        self.run, self.script, self.proxies = Run(script), script, proxies
        self.reads = Counter()

    def judged(self, lines, history):
        """Raises Unlawful where no schedule gives these lines."""
        at = 0
        for number, commands in enumerate(self.script.rounds):
            if len(lines) < at + len(commands):
                raise Unlawful(f"there are {len(lines)} lines")
            self.round(number, in_order(commands), lines[at : at + len(commands)])
            at += len(commands)
        wanted = [self.run.audit(), *(self.run.history() if history else [])]
        for line, due in zip(lines[at:], wanted):
            if line != due:
                raise Unlawful(f"{line!r} in place of {due!r}, as the replies say")
        if len(lines) != at + len(wanted):
            raise Unlawful(f"there are {len(lines)} lines in place of {at + len(wanted)}")

    def round(self, number, placed, lines):
        """Makes a round's calls in an order that gives these lines, or raises Unlawful."""
        self.number, self.held, self.told, self.order = number, Counter(), [], []
        waiting = defaultdict(deque)
        for (place, it), line in zip(placed, lines):
            head = line_of(number, place, it, "")
            if not line.startswith(head):
                raise Unlawful(f"{line!r} where {head!r} begins")
            call = Call(it, place, line, *stood(it, line[len(head) :]))
            self.held[call.at] += call.when == "at a position"
            waiting[it.client].append(call)
        while waiting:
            calls = self.next_of(waiting)
            self.make(calls.popleft())
            while calls and self.goes_on(calls[0]):
                self.make(calls.popleft())
            waiting = (
                waiting if calls else {client: left for client, left in waiting.items() if left}
            )
        self.run.learned(self.told)
        if any(call.when == "full" for call in self.order):
            self.look_round()
        self.reads.update(call.it.client for call in self.order if call.it.do == "grv")

    def next_of(self, waiting):
        """Returns the calls of the client that goes on next."""
        for may_go in (self.goes_on, self.changes, self.draws):
            for calls in waiting.values():
                if may_go(calls[0]):
                    return calls
        first = min(
            (calls[0] for calls in waiting.values()), key=lambda call: (call.it.client, call.place)
        )
        raise Unlawful(f"no order of round {self.number} gives {first.line!r}")

    def goes_on(self, call):
        """Whether a call that changes nothing for other clients can be made now."""
        if call.when == "at a position":
            return call.at == self.run.position
        if call.when == "exhausted":
            return self.run.next_version(call.it.at)[1] > LAST_VERSION
        return call.when in ("anywhere", "full")

    def changes(self, call):
        """Whether a report can change the record now, since nobody is left at this position."""
        return (
            call.when == "changes"
            and call.at == self.run.position + 1
            and self.held[self.run.position] == 0
        )

    def draws(self, call):
        return call.when == "draws" and call.at == len(self.run.chain)

    def make(self, call):
        """Makes a call, whose answer has to be what its line says."""
        it, run = call.it, self.run
        may_be_full = call.when == "full" and run.turned_away(it) is None
        due = line_of(
            self.number, call.place, it, run.found_full(it) if may_be_full else run.called(it)
        )
        if call.line != due:
            raise Unlawful(f"{call.line!r} in place of {due!r}")
        self.order.append(call)
        self.held[call.at] -= call.when == "at a position"
        if it.do == "tell":
            self.told.append((it.to, run.logs[it.client].position))

    def look_round(self):
        """Raises Unlawful where reads of this round cannot have found their queues full."""
        counts, reads, so_far = Counter(), [], self.reads.copy()
        for call in self.order:
            client = call.it.client
            if call.it.do == "grv":
                proxy = (client + so_far[client]) % self.proxies
                so_far[client] += 1
                if self.run.turned_away(call.it) is None:
                    reads.append(Read(call, client, counts[client], proxy, call.when == "full"))
            counts[client] += 1
        fault = crowd_fault(self.script, reads, befores(self.order))
        if fault:
            raise Unlawful(f"round {self.number}: {fault}")


class Read(NamedTuple):
    """A read that was not refused for itself: its place in its client's round, and its proxy."""

    call: Call
    client: int
    index: int
    proxy: int
    is_full: bool

    @property
    def rank(self):
        return RANKS[self.call.it.priority]


def befores(order):
    """Returns, for each call by client, how many calls of each client ended before it began.

    The commit versions are drawn one after the other, and so are changes made, with what is
    answered at a position between two of these. With the order of each client's calls this says
    what came before what, in any schedule.
    """
    own, found = defaultdict(Counter), defaultdict(list)
    drawn, changed, answered = Counter(), Counter(), Counter()
    for call in order:
        client = call.it.client
        mine = own[client]
        found[client].append(mine.copy())
        mine[client] += 1
        if call.when == "draws":
            mine |= drawn
            drawn = mine.copy()
        elif call.when == "changes":
            mine |= answered
            changed, answered = mine.copy(), mine.copy()
        elif call.when == "at a position":
            mine |= changed
            answered = answered | mine
        own[client] = mine
    return found


def crowd_fault(script, reads, before):
    """Returns why some of a round's reads cannot have found their queues full, or None.

    A queue is full where `room` reads wait in it, of as many clients. A read that is refused then
    is of no higher priority than any of them. One that is pushed out is of no higher one than the
    read that does it and the others that wait.
    """
    for proxy in sorted({read.proxy for read in reads if read.is_full}):
        here = [read for read in reads if read.proxy == proxy]
        full = [read for read in here if read.is_full]
        fault = too_often(script, here, full)
        for rank in sorted({read.rank for read in full}):
            fault = fault or too_few(
                script.room, [it for it in here if it.rank >= rank], rank, before
            )
        if fault:
            return f"{fault} at proxy {proxy}"
    return None


def too_few(room, reads, rank, before):
    """Returns whether too few of these reads, of this rank or above, can have waited for it.

    When the last of them went, those that waited then stayed until they started.
    """
    waited, stayed = places_of(reads), places_of(it for it in reads if not it.is_full)
    full = [read for read in reads if read.is_full]
    for read in (it for it in full if it.rank == rank):
        others = beside(read, waited, before)
        if others < room:
            said = f"{others} reads can have waited beside that of {read.call.line!r}"
            return f"{said}, and there is room for {room}"
    if all(beside(read, stayed, before) < room for read in full):
        return f"too few reads found room for {len(full)} to find none"
    return None


def places_of(reads):
    """Returns each client's calls among these."""
    places = defaultdict(list)
    for it in reads:
        places[it.client].append(it.index)
    return places


def beside(read, places, before):
    """Returns how many other clients' reads can have waited when this one found no room."""
    begun, count = before[read.client][read.index], 0
    for client, indexes in places.items():
        at = bisect_left(indexes, begun[client])
        count += (
            client != read.client
            and at < len(indexes)
            and before[client][indexes[at]][read.client] <= read.index
        )
    return count


def too_often(script, here, full):
    """Returns whether a client found the queue full too often.

    In the window of such a turn the first that waits starts if its count fits, and it is of no
    lower priority than the read that was refused or pushed out. A client has one read in a turn,
    and so each such turn starts another read of another client.
    """
    fits = {"system": 100_000, "default": script.normal, "batch": min(script.normal, script.batch)}
    if any(it.call.it.count > fits[it.call.it.priority] for it in here):
        return None
    for rank in RANKS.values():
        refused = Counter(read.client for read in full if read.rank >= rank)
        started = Counter(read.client for read in here if read.rank >= rank and not read.is_full)
        for client, times in refused.items():
            if times > sum(started.values()) - started[client]:
                return f"client {client} found its queue full {times} times"
    return None


def fault_of_text(script, proxies, out, history=True):
    """Returns why no schedule gives this text of a script with this number of proxies, or None."""
    try:
        text = out.decode("ascii")
        if not text.endswith("\n"):
            return "it does not end with a line end"
        Judge(script, proxies).judged(text[:-1].split("\n"), history)
    except UnicodeDecodeError:
        return "it is no ASCII"
    except Unlawful as why:
        return str(why)
    return None


def is_determined(script, proxies):
    """Whether each schedule gives the same text, since nobody races for what a reply says.

    So it is where in each round one client at most asks for commit versions, one at most calls the
    register if anyone reports, and each queue has room for a read of each client that comes to it.
    """
    reads = Counter()
    for commands in script.rounds:
        askers = {it.client for it in commands if it.do in ("ask", "reask")}
        reporters = {it.client for it in commands if it.do == "report"}
        callers = reporters | {it.client for it in commands if it.do == "grv"}
        crowds = defaultdict(set)
        for it in (it for it in commands if it.do == "grv"):
            crowds[(it.client + reads[it.client]) % proxies].add(it.client)
            reads[it.client] += 1
        if (
            len(askers) > 1
            or (reporters and len(callers) > 1)
            or any(len(who) > script.room for who in crowds.values())
        ):
            return False
    return True


class Lawful:
    """What may be printed for a script: where it is refused or nobody races, that is one text."""

    def __init__(self, given, proxies=1):
        self.proxies, self.refusal = proxies, None
        try:
            self.script = script_of(given)
        except Refused as why:
            self.refusal = refused(str(why))
            return
        self.is_alone = is_determined(self.script, proxies)
        self.text = printed(self.script, True) if self.is_alone else None

    def fault_of(self, ran, history=True):
        """Returns how a run differs from what is lawful, or None."""
        if self.refusal:
            return fault_of(ran, self.refusal)
        wanted = self.text if history or self.text is None else without_history(self.text)
        fault = fault_of(ran, Ran(DONE, wanted, b""))
        return fault or (
            None if self.is_alone else fault_of_text(self.script, self.proxies, ran.out, history)
        )
