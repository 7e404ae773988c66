"""The audit of a log of calls: its faults, with why each stands, or what is said of it."""
from __future__ import annotations

import json as written_json
from ctypes import byref, c_uint8, c_uint64
from dataclasses import dataclass
from typing import Any, Iterable, List, Optional, Sequence, Tuple, Union, cast

from ._handle import Handle, written
from ._library import RawCall, RawFault, RawOptions, RawRefused, library
from ._status import Refused, Status
from ._values import Named, Text, flag, instance, members, named, number, octets

_ROOM_FOR_TEXT = 4096


class Member(Named):
    """The members of a line, and, from READ to LEARN, the kinds of calls."""

    CLIENT = 1
    READ = 2
    COMMIT = 3
    ASK = 4
    REPORT = 5
    LEARN = 6
    BEGAN = 7
    ENDED = 8
    KEY = 9


class FaultKind(Named):
    """What can be wrong with a line.

    ORDER is a stale read: it is below a version that its caller knew. WRONG is a read of a version
    that is not there; NOT_ABOVE a version that was drawn and is not above all that its caller knew;
    TWICE one that was drawn twice, and not by commits alone; STRAY a report of a version that others
    drew, or that nobody can have. docs/LOG.md says more of each.
    """

    ORDER = 1
    WRONG = 2
    NOT_ABOVE = 3
    TWICE = 4
    STRAY = 5


class Reason(Named):
    """Why a fault stands: a version was `known`, or who reported or drew it (`other`)."""

    KNOWN = 1
    UNREPORTED = 2
    REPORTED = 3
    DRAWN = 4
    UNDRAWN = 5


class Means(Named):
    """How a version was known: all began with it, or by a line that had ended, is the client's own
    or that it had learnt of."""

    START = 1
    ENDED = 2
    OWN = 3
    LEARNT = 4


@dataclass(frozen=True)
class Call:
    """A line of a log: what was done, and the version that it got or reported.

    `kind` is READ, COMMIT, ASK, REPORT or LEARN. `client` is any number of 32 bits for who made the
    call; `began` and `ended` are in any one unit, on all lines or on none, and `ended` is None
    where it is not known: it then comes before no other call, not of its own client either. Without
    times every line names its client, and one that has learnt what another knew, the `teller`, has
    no version: `Call(Member.LEARN, client=1, teller=0)`. A call above is the teller's.
    """

    kind: Member
    version: Optional[int] = None
    client: Optional[int] = None
    began: Optional[int] = None
    ended: Optional[int] = None
    teller: Optional[int] = None

    def _raw(self) -> RawCall:
        kind, version, client = named("kind", self.kind, Member), self.version, self.client
        began, ended, teller = self.began, self.ended, self.teller
        is_learn = kind is Member.LEARN
        if began is None and ended is not None:
            raise ValueError(f"a call ended, and did not begin: {self}")
        if (version is None) != is_learn or (teller is None) == is_learn:
            raise ValueError(f"a LEARN has a teller alone, and any other call a version: {self}")
        return RawCall(
            0 if version is None else number("version", version),
            0 if began is None else number("began", began),
            0 if ended is None else number("ended", ended),
            0 if client is None else number("client", client, 32),
            0 if teller is None else number("teller", teller, 32),
            kind,
            client is not None,
            began is not None,
            ended is not None,
        )


@dataclass(frozen=True)
class Known:
    """A version that a call knew, and how: by which line, and by which line it had learnt of that.

    Lines are told by their places, counted from 0; what `means` does not name is None.
    """

    version: int
    means: Means
    place: Optional[int] = None
    learnt: Optional[int] = None


@dataclass(frozen=True)
class Late:
    """By how much a call was late, and by which line: its place, counted from 0.

    Of the lines that outdate the call, with a newer version than a read's, or one as new as was
    drawn, it was the first to end; where that is the call itself, there is none. `by` is from its
    end to where the call began, and the fault stands under each lesser margin; 0 where it had not
    ended by then.
    """

    place: int
    by: int


@dataclass(frozen=True)
class Fault:
    """A fault, the place of the line at which it stands, counted from 0, and why it stands.

    `other` is the line that reported the version (REPORTED) or drew it (DRAWN), `known` what was
    known (KNOWN, REPORTED), and `late` how late the call was (ORDER and NOT_ABOVE, in a log with
    times, where a line of another call outdates it); else each is None.
    """

    place: int
    kind: FaultKind
    reason: Reason
    other: Optional[int] = None
    known: Optional[Known] = None
    late: Optional[Late] = None


class LogRefused(Refused):
    """A log that is refused: its first wrong `line`, counted from 1, and maybe which `member`.

    Where it is a text without a line, `line` is 0. Of a `Watch` it is the last wrong line, or with
    UNJUDGED the last that came early; of `Watch.restore` the first wrong line of the text that was
    kept. It is printed as `BAD_MEMBER 2 read`, `NOT_JSON 3` or `EMPTY`.
    """

    line: int
    member: Optional[Member]

    def __init__(self, status: int, line: int, member: Optional[int] = None) -> None:
        super().__init__(status)
        self.line = line
        self.member = Member(member) if member else None
        self.args = (self.status, line, self.member)

    def __str__(self) -> str:
        at_line = f" {self.line}" if self.line else ""
        of_member = f" {self.member.name.lower()}" if self.member else ""
        return f"{self.status.name}{at_line}{of_member}"


Log = Union[Text, Iterable[Call]]


def audit(
    log: Log,
    *,
    complete: Optional[int] = None,
    margin: int = 0,
    key: Optional[Text] = None,
) -> List[Fault]:
    """All faults of a log, by line: none exactly where some history explains it.

    The log is JSON Lines, as docs/LOG.md has them, in one value of bytes or a text (no path and
    no file), or an iterable of `Call`.
    `complete` is the version that all began with, where the log has all calls; `margin` says how far
    the clocks of two clients may be apart, in the unit of the times. `key` names the member that
    has a line's key, and each key is then judged by itself, as one register; where it is None or
    empty there are no keys, and a `Call` has none (`ValueError`). `LogRefused` is raised where a
    line is wrong or a text has none, and `Refused` says MEMORY.
    """
    has_key = any(members(key, ())[1::2])
    given, lines, name = _log(log, has_key)
    if has_key:
        with Audit(complete=complete, margin=margin, key=key) as keyed:
            keyed.push(given)
            keyed.end()
            return keyed.faults()
    options = _options(complete, margin)
    _, found, size = _told(f"fdb_audit_{name}_faults", given, options, RawFault, lines)
    return [_fault(it) for it in found[:size]]


def audit_text(
    log: Log,
    *,
    complete: Optional[int] = None,
    margin: int = 0,
    key: Optional[Text] = None,
    show: Sequence[str] = (),
    all: bool = False,
    history: bool = False,
    totals: bool = False,
    json: bool = False,
) -> str:
    """What `fdb_audit` prints of a log, as `audit` takes it.

    That is the first fault, or with `all` each, and why; or how much a verdict without a fault
    stands on, and with `history` an order that explains the lines. `totals` say, where a fault
    stands, how much was judged and how many faults there are of each kind; without `all` these
    alone. With `json` it is objects, one a line, and not sentences: totals too where no fault
    stands. (`fdb_audit --all` is `all` and `totals`, `--summary` is `totals` alone, `--json` is all
    three.) `show` names members that are told beside each line; a name that is empty or has a comma
    is a `ValueError`. An iterable of `Call` has no members, and its clients are told by number, as
    `client 2`.
    """
    has_members = any(members(key, show)[1::2])
    given, _, name = _log(log, has_members)
    if name == "log" and (all or history or has_members):
        # (what may be long is found once, whatever room it needs)
        with Audit(
            complete=complete,
            margin=margin,
            key=key,
            show=show,
            all=all,
            history=history,
            totals=totals,
            json=json,
        ) as found:
            found.push(given)
            found.end()
            return found.text()
    options = _options(complete, margin, all, history, totals, json)
    _, text, size = _told(f"fdb_audit_{name}_text", given, options, c_uint8, _ROOM_FOR_TEXT)
    return str(memoryview(text)[:size], "utf-8")


class Audit(Handle):
    """An audit of JSON Lines that come piece by piece, and then what it found.

    It keeps the log's lines and not their bytes. `complete`, `margin` and `key` are those of
    `audit`, and the rest those of `audit_text`. `Refused` says MEMORY, or BAD_MEMBER where `key`
    is no UTF-8.

    Threads may share one: their calls wait for one another. It is freed by `close`, at the end of a
    `with`, or when nobody has it any more, and can be neither copied nor pickled.
    """

    _free = library.fdb_audit_free

    def __init__(
        self,
        *,
        complete: Optional[int] = None,
        margin: int = 0,
        key: Optional[Text] = None,
        show: Sequence[str] = (),
        all: bool = False,
        history: bool = False,
        totals: bool = False,
        json: bool = False,
    ) -> None:
        options = _options(complete, margin, all, history, totals, json)
        self._open(library.fdb_audit_new, byref(options), *members(key, show))

    def push(self, piece: Text) -> None:
        """Takes the next bytes of the log, cut anywhere.

        `LogRefused` is raised as soon as a line is wrong, whatever may come after it. That ends the
        audit, as MEMORY does; `Refused` says OVER where it was over before.
        """
        given, refused = octets("a piece", piece), RawRefused()
        verdict(self._call(library.fdb_audit_push, given, len(given), byref(refused)), refused)

    def end(self) -> Status:
        """Audits the log, which ends here: OK or FAULT. The audit is then over.

        It is refused as `push` is; where no line came, as EMPTY.
        """
        refused = RawRefused()
        return verdict(self._call(library.fdb_audit_end, byref(refused)), refused)

    def text(self) -> str:
        """What was found, as `audit_text` has it: empty where nothing was found yet."""
        return str(self._call(written, library.fdb_audit_text, c_uint8), "utf-8")

    def objects(self) -> List[Any]:
        """What was found with `json`, as values of Python."""
        return objects_in(self.text())

    def faults(self) -> List[Fault]:
        """All faults that were found, by line."""
        return [_fault(it) for it in self._call(written, library.fdb_audit_faults, RawFault)]


def _options(
    complete: Optional[int],
    margin: int,
    all: bool = False,
    history: bool = False,
    totals: bool = False,
    json: bool = False,
) -> RawOptions:
    return RawOptions(
        0 if complete is None else number("complete", complete),
        number("margin", margin),
        complete is not None,
        flag("all", all),
        flag("history", history),
        flag("totals", totals),
        flag("json", json),
    )


def _log(log: Log, has_members: bool) -> Tuple[Any, int, str]:
    """What goes to the library, how many lines it may have, and the word of the call for it.

    Calls have no members.
    """
    try:
        text = octets("the log", cast(Text, log))
        return text, text.count(b"\n") + 1, "log"
    except TypeError:
        # (a file that is empty would be a log without a call)
        if not isinstance(log, Iterable) or hasattr(log, "read"):
            raise
    if has_members:
        raise ValueError("a call has no members: neither a key nor one that is shown")
    raw = [instance("a line", it, Call)._raw() for it in cast("Iterable[Call]", log)]
    return (RawCall * len(raw))(*raw), len(raw), "calls"


def _told(
    name: str, given: Any, options: RawOptions, element: Any, room: int
) -> Tuple[Status, Any, int]:
    """The verdict, and what a call writes, in an array that has room for it, and how much that is."""
    call, size, refused = getattr(library, name), c_uint64(), RawRefused()
    while True:
        found = (element * room)()
        status = call(given, len(given), byref(options), found, room, byref(size), byref(refused))
        if status != Status.ROOM:
            break
        room = size.value
    return verdict(status, refused), found, size.value


def objects_in(text: str) -> List[Any]:
    """The objects of a text that has one a line."""
    return [written_json.loads(it) for it in text.split("\n")[:-1]]


def verdict(status: int, refused: RawRefused) -> Status:
    """OK or FAULT, or else a refusal, which is raised."""
    if status in (Status.MEMORY, Status.OVER):
        raise Refused(status)
    if status not in (Status.OK, Status.FAULT):
        raise LogRefused(status, refused.line, refused.member)
    return Status(status)


def _fault(raw: RawFault) -> Fault:
    reason = Reason(raw.reason)
    has_other = reason in (Reason.REPORTED, Reason.DRAWN)
    return Fault(
        raw.place,
        FaultKind(raw.kind),
        reason,
        raw.other if has_other else None,
        _known(raw) if reason in (Reason.KNOWN, Reason.REPORTED) else None,
        Late(raw.first, raw.late) if raw.has_late else None,
    )


def _known(raw: RawFault) -> Known:
    means = Means(raw.means)
    place = raw.by if means != Means.START else None
    return Known(raw.known, means, place, raw.learnt if means == Means.LEARNT else None)
