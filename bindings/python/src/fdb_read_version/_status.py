"""Why a call refuses."""
from __future__ import annotations

from ._values import Named


class Status(Named):
    """What a call answers: the numbers of `include/fdb_read_version.h`, which says what each is."""

    OK = 0
    BAD_EPOCH = 1
    NO_PROXY = 2
    UNKNOWN_PROXY = 3
    EARLY = 4
    FORGOTTEN = 5
    EXHAUSTED = 6
    MEMORY = 7
    ROOM = 8
    BAD_OP = 16
    BAD_CONFIG = 17
    BAD_COUNT = 18
    BATCH_THROTTLED = 19
    FULL = 20
    TAG_TOO_LONG = 21
    FAULT = 32
    TOO_LONG = 33
    TOO_MANY = 34
    NOT_JSON = 35
    NO_CALL = 36
    TWO_CALLS = 37
    SOME_TIMES = 38
    BAD_MEMBER = 39
    EMPTY = 40
    OVER = 41
    UNJUDGED = 42
    NOT_KEPT = 43


class Refused(Exception):
    """A refusal: its `status`, and of an early request the number that is `expected`, else 0.

    It is printed as `FULL` or `EARLY, expected 2`.
    """

    status: Status
    expected: int

    def __init__(self, status: int, expected: int = 0) -> None:
        # (what a pickle or a copy is made from)
        super().__init__(Status(status), expected)
        self.status = Status(status)
        self.expected = expected

    def __str__(self) -> str:
        return self.status.name + (f", expected {self.expected}" if self.expected else "")

    def __eq__(self, other: object) -> bool:
        if not isinstance(other, Refused):
            return NotImplemented
        return type(self) is type(other) and self.args == other.args

    def __hash__(self) -> int:
        return hash((type(self), self.args))
