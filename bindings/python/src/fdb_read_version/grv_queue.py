"""The queue of a GRV proxy."""
from __future__ import annotations

from ctypes import byref, c_uint64
from dataclasses import dataclass
from typing import Any, Iterable, List, Optional, Tuple, Union

from ._handle import Handle
from ._library import (
    RawConfig,
    RawLimit,
    RawOp,
    RawOutcome,
    RawRequest,
    RawTurnedAway,
    library,
)
from ._status import Refused, Status
from ._values import Named, Text, instance, named, number, octets

_OFFER, _WINDOW, _POP = 0, 1, 2
_MOST_STARTED = 10_000


class Priority(Named):
    """No rate holds the first, the normal rate the second, both rates the third."""

    SYSTEM = 0
    DEFAULT = 1
    BATCH = 2


@dataclass(frozen=True, order=True)
class QueueConfig:
    """The rates, and the most requests that wait.

    A rate is how many transactions a window may start beside what the rate's budget has, which
    gains as many in two seconds. `normal` is 1 to 100,000, `batch` 0 to 100,000 (with 0 no batch
    request is let in) and `room` 1 to 100,000.
    """

    normal: int
    batch: int
    room: int

    def _raw(self) -> RawConfig:
        return RawConfig(
            number("normal", self.normal), number("batch", self.batch), number("room", self.room)
        )


@dataclass(frozen=True, order=True)
class Request:
    """A request for a read version, for `count` transactions, and what it carries (`payload`).

    `count` is 1 to 100,000, and of a batch request at most `normal` + 10.
    """

    count: int
    payload: int = 0
    priority: Priority = Priority.DEFAULT


@dataclass(frozen=True, order=True)
class Offer:
    """An operation: a request is offered."""

    request: Request


@dataclass(frozen=True, order=True)
class Window:
    """An operation: a window is held, `elapsed` microseconds (1 to 10,000,000) after the last."""

    elapsed: int


@dataclass(frozen=True, order=True)
class Pop:
    """An operation: the first request of the row is taken out."""


@dataclass(frozen=True)
class Outcome:
    """What came of an operation, and what the queue then is.

    `normal` and `batch` are the budgets, of which 2,000,000 are a transaction; `waits` says how many
    system, default and batch requests wait; `started` has the requests that a window started, in
    order, and `out` the one that was pushed out or taken out. `status` is OK but in what `outcomes`
    gives.
    """

    normal: int
    batch: int
    waits: Tuple[int, int, int]
    started: Tuple[Request, ...] = ()
    out: Optional[Request] = None
    status: Status = Status.OK


@dataclass(frozen=True, order=True)
class TurnedAway:
    """A batch request that new rates turned away: BAD_COUNT or BATCH_THROTTLED, and the request."""

    cause: Status
    request: Request


@dataclass(frozen=True, order=True)
class Limit:
    """A throttle: `rate` transactions per second, until the moment `expires` (microseconds)."""

    rate: int
    expires: int


def _request(raw: RawRequest) -> Request:
    return Request(raw.count, raw.payload, Priority(raw.priority))


def _outcome(raw: RawOutcome, started: Iterable[RawRequest] = ()) -> Outcome:
    return Outcome(
        raw.normal,
        raw.batch,
        (raw.system_waits, raw.default_waits, raw.batch_waits),
        tuple(_request(it) for it in started),
        _request(raw.out) if raw.has_out else None,
        Status(raw.status),
    )


class GrvQueue(Handle):
    """The requests that wait at a GRV proxy, and the budgets by which they start.

    The *row* is all that wait, in the order in which they start: the system requests, then the
    default ones, then the batch ones, each as they came. A new queue has budgets of 0. `Refused` says
    BAD_CONFIG or MEMORY.

    Threads may share one: their calls wait for one another. It is freed by `close`, at the end of a
    `with`, or when nobody has it any more, and can be neither copied nor pickled.
    """

    _free = library.fdb_queue_free

    def __init__(self, config: QueueConfig) -> None:
        raw = instance("config", config, QueueConfig)._raw()
        self._open(library.fdb_queue_new, byref(raw))
        # Arrays of what windows started, which the calls of no thread use now.
        self._spare: List[Any] = []
        self._most = min(raw.room, _MOST_STARTED)

    def offer(
        self, count: int = 1, payload: int = 0, priority: Priority = Priority.DEFAULT
    ) -> Outcome:
        """Lets a request of `count` transactions in; where the queue is full, `out` is pushed out.

        That is the oldest of a lower priority, batch requests first. `Refused` says BAD_COUNT,
        BATCH_THROTTLED, FULL or MEMORY, the first that stands; the queue is then as it was.
        """
        request, raw = _raw_request(count, payload, priority), RawOutcome()
        self._asked(library.fdb_queue_offer, byref(request), byref(raw))
        return _outcome(raw)

    def window(self, elapsed: int) -> Outcome:
        """Holds a window, `elapsed` microseconds (1 to 10,000,000) after the last one.

        It starts the first requests of the row, up to the first that may not start, and 10,000 at
        most. Let `sum` be the transactions of a request and of all that start before it in this
        window. A system request may always start; a default one where the normal rate lets it, and a
        batch one where both do. A rate does where

            sum * 2_000_000 <= rate * 2_000_000 + budget   and   sum <= 100_000

        Then a rate's budget becomes `budget + elapsed * (rate - paid)`, where `paid` are the
        transactions that started: for the batch rate all, for the normal rate those of system and
        default requests. It is 0 where that is below 0, and at most 100,000 transactions, or 10 where
        no request waits any more that this rate would pay for.

        `Refused` says BAD_CONFIG, for a time out of range, or MEMORY; the queue is then as it was.
        """
        raw, time, spare = RawOutcome(), number("elapsed", elapsed), self._spare
        try:
            started = spare.pop()
        except IndexError:
            started = (RawRequest * self._most)()
        self._asked(library.fdb_queue_window, time, byref(raw), started, len(started))
        outcome = _outcome(raw, started[: raw.started])
        spare.append(started)
        return outcome

    def pop(self) -> Outcome:
        """Takes the first request of the row out, whatever the rates say of it.

        That is `out`, or None where nothing waits. The budgets stay.
        """
        raw = RawOutcome()
        self._call(library.fdb_queue_pop, byref(raw))
        return _outcome(raw)

    def set_rates(self, normal: int, batch: int) -> List[TurnedAway]:
        """Sets the two rates, as in `QueueConfig`, from the next window on.

        Capacity, budgets and throttles stay. It gives the batch requests that wait and that a new
        queue of these rates would refuse, in order; all others wait on. `Refused` says BAD_CONFIG,
        for a rate out of range, or MEMORY; the queue is then as it was.
        """
        rates, size = (number("normal", normal), number("batch", batch)), c_uint64()
        status = int(Status.ROOM)
        while status == Status.ROOM:
            gone = (RawTurnedAway * size.value)()
            given = (*rates, gone, len(gone), byref(size))
            status = self._call(library.fdb_queue_set_rates, *given)
        if status:
            raise Refused(status)
        return [TurnedAway(Status(it.cause), _request(it.request)) for it in gone[: size.value]]

    def waits(self, elapsed: int) -> Optional[int]:
        """How many windows of `elapsed` microseconds start nothing before one starts the first.

        That is the first of the row. It is None where that one does not wait for its own rate alone:
        in an empty row, for a system request, for a batch one that the normal rate may hold or whose
        own rate is 0, and for a time out of range.
        """
        windows = c_uint64()
        time = number("elapsed", elapsed)
        told = self._call(library.fdb_queue_waits, time, byref(windows))
        return windows.value if told else None

    def set_throttle(self, priority: Priority, tag: Text, rate: int, expires: int) -> None:
        """Sets the throttle of a tag, of at most 16 bytes, in the place of an older one.

        `rate` is in transactions per second, and it holds at each moment before `expires`, in
        microseconds. `Refused` says TAG_TOO_LONG or MEMORY; the queue is then as it was. The queue
        itself does not ask for throttles.
        """
        limit = number("rate", rate), number("expires", expires)
        self._asked(library.fdb_queue_set_throttle, *_tag(priority, tag), *limit)

    def throttle(self, priority: Priority, tag: Text, at: int) -> Optional[Limit]:
        """The throttle of a tag that holds at a moment, in microseconds, if there is one.

        `Refused` says MEMORY.
        """
        raw, moment = RawLimit(), number("at", at)
        self._asked(library.fdb_queue_throttle, *_tag(priority, tag), moment, byref(raw))
        return Limit(raw.rate, raw.expires) if raw.holds else None

    def forget_throttles(self, at: int) -> None:
        """Forgets each throttle that expires at this moment, in microseconds, or before.

        Of that moment and later ones, all answers are as if none were forgotten.
        """
        self._call(library.fdb_queue_forget_throttles, number("at", at))


def _tag(priority: Priority, tag: Text) -> Tuple[Priority, bytes, int]:
    given = octets("tag", tag)
    return named("priority", priority, Priority), given, len(given)


def _raw_request(count: int, payload: int, priority: Priority) -> RawRequest:
    given = number("count", count), number("payload", payload)
    return RawRequest(*given, named("priority", priority, Priority))


def _raw_op(op: Union[Offer, Window, Pop]) -> RawOp:
    if isinstance(op, Offer):
        it = instance("a request", op.request, Request)
        raw = _raw_request(it.count, it.payload, it.priority)
        return RawOp(raw.count, raw.payload, _OFFER, raw.priority)
    if isinstance(op, Window):
        return RawOp(number("elapsed", op.elapsed), 0, _WINDOW, 0)
    if isinstance(op, Pop):
        return RawOp(0, 0, _POP, 0)
    raise TypeError(f"an operation is no Offer, Window or Pop: {op!r}")


def outcomes(config: QueueConfig, ops: Iterable[Union[Offer, Window, Pop]]) -> List[Outcome]:
    """The outcomes of these operations on a new queue, in order; the `status` of each says a refusal.

    `Refused` is raised where the configuration is out of range, or memory is refused.
    """
    raw = [_raw_op(it) for it in ops]
    given, found, size = (RawOp * len(raw))(*raw), (RawOutcome * len(raw))(), c_uint64()
    # (no more start than are offered)
    started = (RawRequest * len(raw))()
    status = library.fdb_queue_outcomes(
        byref(instance("config", config, QueueConfig)._raw()),
        given,
        len(raw),
        found,
        len(raw),
        started,
        len(raw),
        byref(size),
    )
    if status:
        raise Refused(status)
    at, made = 0, []
    for it in found:
        made.append(_outcome(it, started[at : at + it.started]))
        at += it.started
    return made
