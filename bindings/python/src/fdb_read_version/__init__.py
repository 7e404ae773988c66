"""The part of FoundationDB's read-version path that one thread runs, proved, from Python.

`Chain` issues commit versions as the sequencer does, `Record` is the live committed version with
what belongs to it, and `GrvQueue` says which requests for a read version wait at a GRV proxy and
which start. `answers` and `outcomes` take all requests of a run at once. `audit` finds the faults of
a log of calls, of any system, and `audit_text` says what it found; `Audit` takes a log piece by
piece, and `Watch` tells of one that grows what has become certain.

Threads may share a handle (`Audit`, `Chain`, `GrvQueue`, `Watch`): its calls wait for one another.
Values of data never change. Versions and numbers are of 64 bits, and moments of a chain or a
throttle are microseconds.
"""
from ._status import Refused, Status
from .chain import Ask, Chain, Issued, answers
from .grv_queue import (
    GrvQueue,
    Limit,
    Offer,
    Outcome,
    Pop,
    Priority,
    QueueConfig,
    Request,
    TurnedAway,
    Window,
    outcomes,
)
from .log import (
    Audit,
    Call,
    Fault,
    FaultKind,
    Known,
    Late,
    LogRefused,
    Means,
    Member,
    Reason,
    audit,
    audit_text,
)
from .register import Record
from .watch import Watch, WatchCounts

__version__ = "0.4.0"

__all__ = [
    "Ask",
    "Audit",
    "Call",
    "Chain",
    "Fault",
    "FaultKind",
    "GrvQueue",
    "Issued",
    "Known",
    "Late",
    "Limit",
    "LogRefused",
    "Means",
    "Member",
    "Offer",
    "Outcome",
    "Pop",
    "Priority",
    "QueueConfig",
    "Reason",
    "Record",
    "Refused",
    "Request",
    "Status",
    "TurnedAway",
    "Watch",
    "WatchCounts",
    "Window",
    "answers",
    "audit",
    "audit_text",
    "outcomes",
]
