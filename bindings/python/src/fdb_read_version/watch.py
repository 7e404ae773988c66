"""The watch of a log of calls that grows."""
from __future__ import annotations

from ctypes import byref, c_uint8
from typing import Any, List, NamedTuple, Optional, Sequence, Tuple

from ._handle import Handle, written
from ._library import RawRefused, RawWatchCounted, RawWatchOptions, library
from ._status import Refused, Status
from ._values import Text, flag, members, number, octets
from .log import LogRefused, objects_in, verdict


class WatchCounts(NamedTuple):
    """How far a log has been followed: what `fdb_audit --follow --json` tells in `watched`.

    `lines` were not refused: `reads`, `commits`, `asks` and `reports`. `early` of them came early,
    of which `judged` were judged; `ahead` is how often an end was found to be ahead of a line that
    came later. Of `open` lines not all is told that there is to tell; they are among those that are
    `kept`. All is told up to the moment `settled_to`, and `newest_end` is the newest end that is
    believed, or 0. Lines that were kept of others are among `open` and `kept` alone.
    """

    lines: int
    reads: int
    commits: int
    asks: int
    reports: int
    refused: int
    early: int
    judged: int
    ahead: int
    open: int
    kept: int
    newest_end: int
    settled_to: int


def _options(behind: int, margin: int, totals: bool, json: bool) -> RawWatchOptions:
    return RawWatchOptions(
        number("behind", behind),
        number("margin", margin),
        flag("totals", totals),
        flag("json", json),
    )


class Watch(Handle):
    """A watch of JSON Lines that come piece by piece: what `fdb_audit --follow` is.

    It keeps the lines that may yet come to matter, the name of each client and key, 8 bytes for
    each line that was refused and, with `totals`, counts of at most 65,536 clients, keys and texts
    of each shown member. A line begins at most so far `behind` the newest end, and the clocks of
    two clients are at most `margin` apart, both in the unit of the times. `key` names the member
    that has a line's key, and each key is then watched by itself; where it is None or empty there
    are no keys. `show` names members that are told beside each line; a name that is empty or has a
    comma is a `ValueError`. With `totals` the end tells how much was read, and how many faults of
    each kind, where one was told or with `json`: then objects are told, and not sentences.
    `Refused` says MEMORY, or BAD_MEMBER where `key` is no UTF-8.

    Threads may share one: their calls wait for one another. It is freed by `close`, at the end of a
    `with`, or when nobody has it any more, and can be neither copied nor pickled.
    """

    _free = library.fdb_watch_free

    def __init__(
        self,
        behind: int,
        *,
        margin: int = 0,
        key: Optional[Text] = None,
        show: Sequence[str] = (),
        totals: bool = False,
        json: bool = False,
    ) -> None:
        options = _options(behind, margin, totals, json)
        self._open(library.fdb_watch_new, byref(options), *members(key, show))

    @classmethod
    def restore(
        cls,
        kept: Text,
        behind: int,
        *,
        margin: int = 0,
        key: Optional[Text] = None,
        show: Sequence[str] = (),
        totals: bool = False,
        json: bool = False,
    ) -> Watch:
        """A watch that goes on from what `keep` gave, or a file of `fdb_audit --keep` has.

        It tells of the lines that come, which are those behind the first `kept_lines` lines of the
        log, what the watch that kept them would have told. But for `totals` and `json` the
        arguments are those of that one, which had no `--position`. A text without a line is a new
        watch; a file that keeps no line is refused, as NO_CALL. `LogRefused` is raised of the first line of `kept` that is not as it was kept, as
        NOT_KEPT, which of line 1 may also say that it was kept by other arguments, or, as of a
        line that was cut off, NOT_JSON. Else it is refused as `Watch` is.
        """
        options, refused = _options(behind, margin, totals, json), RawRefused()
        given, made = octets("kept", kept), cls.__new__(cls)

        def opened(*it: Any) -> int:
            status: int = library.fdb_watch_restore(*it, byref(refused))
            return status

        try:
            made._open(opened, byref(options), *members(key, show), given, len(given))
        except Refused as why:
            if not refused.line:
                raise
            raise LogRefused(why.status, refused.line, refused.member) from None
        return made

    def push(self, piece: Text) -> None:
        """Takes the next bytes of the log, cut anywhere; a line that is refused is left out.

        That, also of a line without times, is told by `warnings` after the next `tell` or `end`.
        `Refused` says MEMORY, which ends the watch, or OVER where it was over before.
        """
        given = octets("a piece", piece)
        self._asked(library.fdb_watch_push, given, len(given))

    def tell(self, idle: bool = True) -> str:
        """Says what has become certain since it said so last, each fault once: as `text` from then.

        With `idle`, which is always allowed, it looks for that at once, and else, where more is
        there to be read, once 8,192 lines came since it last did, and were not refused: at each
        call that began more than `behind` before the newest end. A line that comes later and began
        as early came early: it is not refused and its version counts, but it is judged only if it
        began at most `behind` before that or, with a `key`, before where its own key settled last.
        It is refused as `push` is; what was said last then stays.
        """
        is_idle = flag("idle", idle)

        def told(handle: Any) -> Tuple[int, Any]:
            status = library.fdb_watch_tell(handle, is_idle)
            return status, None if status else written(handle, library.fdb_watch_text, c_uint8)

        status, text = self._call(told)
        if status:
            raise Refused(status)
        return str(text, "utf-8")

    def end(self) -> Status:
        """Says, as `text`, what is left where the log ends here: the watch is then over.

        FAULT where a fault was told, at any time, else OK. Where none was, and lines were left out,
        it raises `LogRefused` of the last of them, or of EMPTY where no line came; else, where lines
        came early, of UNJUDGED with the last of them, since not all was judged: `behind` is too
        small, or a clock is ahead. Text and warnings are there all the same. Without a fault the
        text is `audit ok`, or `audit early` where lines came early, and how many lines were not
        refused, or with `json` empty but for `totals`. `Refused` is raised as by `push`.
        """
        refused = RawRefused()
        return verdict(self._call(library.fdb_watch_end, byref(refused)), refused)

    def text(self) -> str:
        """What was said last, by `tell` or `end`: a line for each sentence or object."""
        return str(self._call(written, library.fdb_watch_text, c_uint8), "utf-8")

    def objects(self) -> List[Any]:
        """What was said last with `json`, as values of Python."""
        return objects_in(self.text())

    def warnings(self) -> str:
        """What came with that: a line for each line that was left out, with its number and why.

        So does one for the first, second, fourth, eighth and so on that came early.
        """
        return str(self._call(written, library.fdb_watch_warnings, c_uint8), "utf-8")

    def keep(self) -> str:
        """The text of what is kept: the lines that may yet come to matter, for `restore`.

        `fdb_audit --follow --keep` goes on from it too, as a file. Ask for it once what was said has
        been written where it is to go: neither that nor warnings are said again. A line that has
        come without its end is not kept, and is to come again. `Refused` says MEMORY, which leaves
        the watch as it was, OVER, or NOT_KEPT: the text is read back, and does not say what is kept.
        """

        def kept(handle: Any) -> Tuple[int, Any]:
            status = 0

            def keep(*room: Any) -> int:
                nonlocal status
                status = library.fdb_watch_keep(*room)
                return status

            text = written(handle, keep, c_uint8)
            return status, text

        status, text = self._call(kept)
        if status:
            raise Refused(status)
        return str(text, "utf-8")

    def counts(self) -> WatchCounts:
        """How far the log has been followed, in constant time. `Refused` says OVER."""
        counts = RawWatchCounted()
        self._asked(library.fdb_watch_counts, byref(counts))
        return WatchCounts(*(getattr(counts, it) for it in WatchCounts._fields))
