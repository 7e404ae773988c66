"""Counts what a watch tells, and gives the counts to prometheus_client."""
from __future__ import annotations

import hashlib
import json
import re
import sys
import threading
import time
from collections import Counter, deque
from typing import Any, Deque, Dict, Iterator, List, Optional, Set, Tuple

from prometheus_client import Metric
from prometheus_client.core import CounterMetricFamily, GaugeMetricFamily
from prometheus_client.registry import Collector

# The faults; those that a watch tells are there from the beginning, since a counter that comes with
# its first fault would not seem to rise.
KINDS = ("Order", "Wrong", "NotAbove", "Twice", "Stray")
WATCHED = ("Order", "NotAbove")
# How many texts of the member that names them have a count of their own, how long they are at most,
# and what the others are counted as.
MOST_TEXTS, MOST_LETTERS, OTHER = 100, 100, "other"
# As many faults that were told last are known again.
MOST_KNOWN = 10_000
# The longest line that is read: a fault has six lines of the log at most, each with names of 1 MiB.
MOST_BYTES = 1 << 26
# How a line begins that stood on standard error.
SAID = b"fdb_audit: "
# The counts of a watch: what is said of each, and the members of `watched` that have it.
LINES = {"read": "reads", "commit": "commits", "ask": "asks", "report": "reports"}
COUNTERS = {"refused": "Lines that were refused.",
            "early": "Lines that began before what had been settled: N is too small for them.",
            "ahead": "Ends that were found to be ahead, and are not believed: a clock is."}
GAUGES = {"open": "Lines of which not all is told yet.",
          "newest_end": "The newest end that is believed, in the log's unit; 0 where none is.",
          "settled_to": "The moment up to which all is told, in the log's unit."}
FAULTS = ("Faults that were told. One that is told again is counted once, as far back as the last "
          f"{MOST_KNOWN:,}.")


class NotSaid(Exception):
    """A line that is none of a watch: why."""


def whole(value: Any) -> int:
    """A whole number, as counts, times and line numbers are."""
    if type(value) is not int or value < 0:
        raise NotSaid("no whole number")
    return value


def part(said: Dict[str, Any], name: str) -> Dict[str, Any]:
    """A member that is an object."""
    found = said.get(name)
    if not isinstance(found, dict):
        raise NotSaid(f"{name} is no object")
    return found


def label_of(member: str) -> str:
    """The name of a member as Prometheus takes it for a label, beside `kind`."""
    name = re.sub(r"\W", "_", member, flags=re.ASCII)
    is_fit = name[:1].isalpha() and name != "kind"
    return name if is_fit else f"member_{name}"


def text_of(value: Any) -> str:
    """The text of a member: its own, or that of its JSON, or none; what is no UTF-8 is replaced."""
    if value is None:
        return ""
    text = value if isinstance(value, str) else json.dumps(value, separators=(",", ":"))
    return text[:MOST_LETTERS].encode(errors="replace").decode()


class Lines:
    """The lines of what comes in pieces. Of one that is too long there is only the beginning."""

    def __init__(self) -> None:
        self.parts: List[bytes] = []
        self.size = 0

    def of(self, piece: bytes) -> Iterator[bytes]:
        *whole_lines, rest = piece.split(b"\n")
        for it in whole_lines:
            self.keep(it)
            yield from self.last()
        if rest:
            self.keep(rest)

    def keep(self, it: bytes) -> None:
        self.parts.append(it)
        self.size += len(it)
        if self.size > MOST_BYTES:
            self.parts = [self.parts[0][:MOST_LETTERS]]

    def last(self) -> Iterator[bytes]:
        """What there is of a line, if anything."""
        if self.parts:
            yield b"".join(self.parts)
        self.parts, self.size = [], 0


class Known:
    """The faults that were told last, by kind and line: each takes as much memory."""

    def __init__(self) -> None:
        self.order: Deque[bytes] = deque()
        self.found: Set[bytes] = set()

    def is_new(self, kind: str, line: Dict[str, Any]) -> bool:
        """Whether a fault is none of these; it is one of them from now on."""
        # (what is shown beside a line may be another with the next watch)
        of = sorted((name, repr(it)) for name, it in line.items() if name != "members")
        it = hashlib.blake2b(repr((kind, of)).encode(errors="replace"), digest_size=16).digest()
        if it in self.found:
            return False
        if len(self.order) == MOST_KNOWN:
            self.found.remove(self.order.popleft())
        self.order.append(it)
        self.found.add(it)
        return True


class Counts(Collector):
    """What a watch has told so far, as metrics."""

    def __init__(self, member: Optional[str]) -> None:
        self.member, self.lines, self.known = member, Lines(), Known()
        self.faults: Counter[Tuple[str, str]] = Counter({(it, ""): 0 for it in WATCHED})
        self.late = dict.fromkeys(WATCHED, 0)
        self.watched = dict.fromkeys([*LINES.values(), *COUNTERS, *GAUGES], 0)
        self.texts: Set[str] = set()
        self.number = self.not_said = self.again = 0
        self.heard = time.time()
        # Around each piece, so that one that is scraped is counted whole.
        self.lock = threading.Lock()

    def hear(self, piece: bytes) -> None:
        """Counts what a piece of bytes tells."""
        with self.lock:
            self.heard = time.time()
            for line in self.lines.of(piece):
                self.take(line)

    def end(self) -> None:
        """Counts what was left of a line when the input ended."""
        with self.lock:
            for line in self.lines.last():
                self.take(line)

    def take(self, line: bytes) -> None:
        """Counts a line. One that is none of a watch is counted as such, and told now and then."""
        self.number += 1
        try:
            self.read(line)
        except (ValueError, RecursionError, NotSaid) as fault:
            self.not_said += 1
            if self.not_said & (self.not_said - 1) == 0:
                why = fault if isinstance(fault, NotSaid) else "no JSON"
                print(f"exporter: line {self.number} is not what fdb_audit --json writes: {why}: "
                      f"{line[:80]!r}; {self.not_said} so far", file=sys.stderr, flush=True)

    def read(self, line: bytes) -> None:
        if line.startswith(SAID):
            return
        said = json.loads(line)
        if not isinstance(said, dict):
            raise NotSaid("no object")
        if "fault" in said:
            self.read_fault(said)
        elif "watched" in said:
            its = part(said, "watched")
            # (all are looked at first; what is 0 may be left out)
            self.watched.update({it: whole(its.get(it, 0)) for it in self.watched})
        # (totals tell again what was told as it came)

    def read_fault(self, said: Dict[str, Any]) -> None:
        kind, line, late = said["fault"], part(said, "at"), whole(said.get("late", 0))
        if kind not in KINDS:
            raise NotSaid("no kind of fault")
        whole(line.get("line"))
        shown = part(line, "members") if "members" in line else {}
        if not self.known.is_new(kind, line):
            self.again += 1
            return
        self.faults[kind, self.text(shown)] += 1
        self.late[kind] = max(late, self.late.get(kind, 0))

    def text(self, shown: Dict[str, Any]) -> str:
        """The text by which a fault is counted at a line of which this is shown."""
        text = "" if self.member is None else text_of(shown.get(self.member))
        if text and text not in self.texts:
            if len(self.texts) == MOST_TEXTS:
                return OTHER
            self.texts.add(text)
        return text

    def collect(self) -> List[Metric]:
        """The metrics, for prometheus_client."""
        with self.lock:
            return [*self.of_faults(), *self.of_lines()]

    def of_faults(self) -> Iterator[Metric]:
        labels = ["kind"] + ([] if self.member is None else [label_of(self.member)])
        faults = CounterMetricFamily("fdb_audit_faults", FAULTS, labels=labels)
        for of, count in self.faults.items():
            faults.add_metric(of[:len(labels)], count)
        late = GaugeMetricFamily(
            "fdb_audit_late_max", "How late the latest was, in the log's unit.", labels=["kind"])
        for kind, most in self.late.items():
            late.add_metric([kind], most)
        yield from (faults, late)
        yield counter("told_again", "Faults that were told again, and not counted.", self.again)

    def of_lines(self) -> Iterator[Metric]:
        lines = CounterMetricFamily(
            "fdb_audit_lines", "Lines that were taken, since the watch was started.",
            labels=["kind"])
        for kind, name in LINES.items():
            lines.add_metric([kind], self.watched[name])
        yield lines
        for name, what in COUNTERS.items():
            yield counter(name, what, self.watched[name])
        for name, what in GAUGES.items():
            yield GaugeMetricFamily(f"fdb_audit_{name}", what, self.watched[name])
        yield counter("not_said", "Lines that are none of a watch, and were passed on.",
                      self.not_said)
        yield GaugeMetricFamily(
            "fdb_audit_heard_seconds", "When it last heard anything, or began: seconds since 1970.",
            self.heard)


def counter(name: str, what: str, count: int) -> Metric:
    return CounterMetricFamily(f"fdb_audit_{name}", what, count)
