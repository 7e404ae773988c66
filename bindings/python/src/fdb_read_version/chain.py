"""The chain of commit versions."""
from __future__ import annotations

from ctypes import byref
from dataclasses import dataclass
from typing import Iterable, List, Union

from ._handle import Handle
from ._library import RawAnswer, RawAsk, library
from ._status import Refused, Status
from ._values import instance, number


@dataclass(frozen=True, order=True)
class Ask:
    """A commit proxy's request for a commit version.

    `proxy` is counted from 0, and `num`, its number among those of its proxy, from 1; `at` is the
    moment in microseconds; `processed` is the number up to which the proxy has processed its
    answers.
    """

    proxy: int
    num: int
    at: int
    processed: int = 0

    def _raw(self) -> RawAsk:
        return RawAsk(
            number("num", self.num),
            number("processed", self.processed),
            number("at", self.at),
            number("proxy", self.proxy, 32),
        )


@dataclass(frozen=True, order=True)
class Issued:
    """A commit version, the one before it (`prev`), and its place in the chain, counted from 0.

    `proxy`, `num`, `processed` and `at` (microseconds) are of the request that drew it; `fresh` says
    whether this request did, or its kept answer came again.
    """

    ordinal: int
    proxy: int
    num: int
    processed: int
    prev: int
    version: int
    at: int
    fresh: bool


def _answer(raw: RawAnswer) -> Union[Issued, Refused]:
    if raw.status != Status.OK:
        return Refused(raw.status, raw.num)
    return Issued(
        raw.ordinal,
        raw.proxy,
        raw.num,
        raw.processed,
        raw.prev,
        raw.version,
        raw.at,
        raw.fresh,
    )


class Chain(Handle):
    """The commit versions of an epoch, as the sequencer issues them.

    The epoch begins with version `recovery`, after one that ended with `epoch_end`; `proxies` is the
    number of its commit proxies. `Refused` says BAD_EPOCH, unless `recovery` is above `epoch_end` and
    below 2^63, NO_PROXY, unless there are 1 to 64, or MEMORY.

    Threads may share one: their calls wait for one another. It is freed by `close`, at the end of a
    `with`, or when nobody has it any more, and can be neither copied nor pickled.
    """

    _free = library.fdb_chain_free

    def __init__(self, epoch_end: int, recovery: int, proxies: int) -> None:
        self._open(library.fdb_chain_new, *_epoch(epoch_end, recovery, proxies))

    def ask(self, proxy: int, num: int, at: int, processed: int = 0) -> Issued:
        """Answers a request, whose numbers are those of `Ask`; `at` is in microseconds.

        One with its proxy's next number draws the next version; one whose answer is kept gets it
        again, with `fresh` False, which changes nothing. The first version is the recovery version.
        Each other is above the one before by the microseconds from the request that drew that one to
        this, by 1 at least and 5,000,000 at most: by 1 where this moment is the earlier one, from
        which the next step then counts. A request that draws lets the answers of its proxy that are
        kept, up to `processed`, go, never its own: these numbers are then forgotten, as 0 always is.

        `Refused` says UNKNOWN_PROXY, EARLY (with the number that is expected), FORGOTTEN,
        EXHAUSTED (the version would be 2^63 or more) or MEMORY, the first that stands; the chain is
        then as it was.
        """
        ask, raw = Ask(proxy, num, at, processed)._raw(), RawAnswer()
        status = self._call(library.fdb_chain_ask, byref(ask), byref(raw))
        # (where memory is refused there is no answer)
        answer = Refused(status) if status == Status.MEMORY else _answer(raw)
        if isinstance(answer, Refused):
            raise answer
        return answer


def _epoch(epoch_end: int, recovery: int, proxies: int) -> List[int]:
    return [
        number("epoch_end", epoch_end),
        number("recovery", recovery),
        number("proxies", proxies, 32),
    ]


def answers(
    epoch_end: int, recovery: int, proxies: int, asks: Iterable[Ask]
) -> List[Union[Issued, Refused]]:
    """The answers of a new chain to these requests, in order. A refusal stands in its place.

    `Refused` is raised as by `Chain`, and says MEMORY also where that was refused on the way.
    """
    raw = [instance("an ask", it, Ask)._raw() for it in asks]
    given, found = (RawAsk * len(raw))(*raw), (RawAnswer * len(raw))()
    epoch = _epoch(epoch_end, recovery, proxies)
    status = library.fdb_chain_answers(*epoch, given, len(raw), found, len(raw))
    if status:
        raise Refused(status)
    return [_answer(it) for it in found]
