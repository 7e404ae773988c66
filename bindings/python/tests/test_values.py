"""What values are: their numbers, that they do not change, are compared, copied and pickled; and what
is refused as a value."""
import _ctypes
import copy
import dataclasses
import io
import multiprocessing
import os
import pickle
import subprocess
import sys
import tempfile
import unittest
from pathlib import Path
from unittest import mock

import fdb_read_version as package
from fdb_read_version import _library
from fdb_read_version import *

NUMBERS = {
    Status: "OK=0 BAD_EPOCH=1 NO_PROXY=2 UNKNOWN_PROXY=3 EARLY=4 FORGOTTEN=5 EXHAUSTED=6 MEMORY=7 "
    "ROOM=8 BAD_OP=16 BAD_CONFIG=17 BAD_COUNT=18 BATCH_THROTTLED=19 FULL=20 TAG_TOO_LONG=21 "
    "FAULT=32 TOO_LONG=33 TOO_MANY=34 NOT_JSON=35 NO_CALL=36 TWO_CALLS=37 SOME_TIMES=38 "
    "BAD_MEMBER=39 EMPTY=40 OVER=41 UNJUDGED=42 NOT_KEPT=43",
    Priority: "SYSTEM=0 DEFAULT=1 BATCH=2",
    Member: "CLIENT=1 READ=2 COMMIT=3 ASK=4 REPORT=5 LEARN=6 BEGAN=7 ENDED=8 KEY=9",
    FaultKind: "ORDER=1 WRONG=2 NOT_ABOVE=3 TWICE=4 STRAY=5",
    Reason: "KNOWN=1 UNREPORTED=2 REPORTED=3 DRAWN=4 UNDRAWN=5",
    Means: "START=1 ENDED=2 OWN=3 LEARNT=4",
}
REQUEST = Request(1, 2, Priority.BATCH)
# Of each class two that differ.
VALUES = [
    (Ask(0, 1, 2), Ask(0, 1, 2, 1)),
    (Issued(0, 1, 2, 3, 4, 5, 6, True), Issued(0, 1, 2, 3, 4, 5, 6, False)),
    (Record(1), Record(1, metadata=bytes(10))),
    (QueueConfig(1, 2, 3), QueueConfig(1, 2, 4)),
    (Request(1, 2), REQUEST),
    (Offer(Request(1)), Offer(Request(2))),
    (Window(1), Window(2)),
    (Pop(), Window(1)),
    (Outcome(1, 2, (3, 4, 5)), Outcome(1, 2, (3, 4, 5), (REQUEST,), REQUEST, Status.FULL)),
    (TurnedAway(Status.BAD_COUNT, REQUEST), TurnedAway(Status.BATCH_THROTTLED, REQUEST)),
    (Limit(1, 2), Limit(2, 1)),
    (Call(Member.READ, 1), Call(Member.LEARN, client=1, teller=0)),
    (Known(1, Means.START), Known(1, Means.LEARNT, 2, 3)),
    (Late(1, 2), Late(2, 1)),
    (Fault(1, FaultKind.WRONG, Reason.UNREPORTED),
     Fault(1, FaultKind.TWICE, Reason.DRAWN, 2, Known(1, Means.START), Late(0, 1))),
    (Refused(Status.EARLY, 3), Refused(Status.EARLY, 4)),
    (LogRefused(Status.EMPTY, 0), LogRefused(Status.BAD_MEMBER, 1, Member.ENDED)),
    (LogRefused(Status.MEMORY, 0), Refused(Status.MEMORY)),
    (WatchCounts(*range(13)), WatchCounts(*range(1, 14))),
]


class OfValues(unittest.TestCase):
    def test_numbers(self):
        for kind, wanted in NUMBERS.items():
            self.assertEqual(" ".join(f"{it}={it.value}" for it in kind), wanted)
        self.assertEqual(f"{Status.EARLY} {Priority.BATCH:>6}", "EARLY  BATCH")

    def test_all_are_compared_copied_and_pickled(self):
        for one, other in VALUES:
            self.assertNotEqual(one, other)
            for value in (one, other):
                for same in (copy.copy(value), copy.deepcopy(value),
                             pickle.loads(pickle.dumps(value))):
                    self.assertEqual((same, hash(same), repr(same), str(same)),
                                     (value, hash(value), repr(value), str(value)))
                    self.assertIs(type(same), type(value))
                for field in dataclasses.fields(value) if dataclasses.is_dataclass(value) else ():
                    with self.assertRaises(dataclasses.FrozenInstanceError):
                        setattr(value, field.name, None)
        for kind in (Ask, Issued, QueueConfig, Request, Offer, Window, TurnedAway, Limit):
            one, other = next(it for it in [*VALUES, (REQUEST, Request(1))] if type(it[0]) is kind)
            self.assertEqual(sorted([one, other]), sorted([other, one]))
        self.assertLess(Ask(0, 1, 2), Ask(0, 1, 3))
        self.assertEqual(Pop(), sorted([Pop(), Pop()])[0])
        known = {it for pair in VALUES for it in pair}
        tried = {type(it) for it in known} | {*NUMBERS, Audit, Chain, GrvQueue, Watch}
        public = {it for it in vars(package).values() if isinstance(it, type)}
        self.assertEqual(public - tried, set(), "classes that nothing here tries")
        self.assertEqual(set(package.__all__), {it for it in dir(package) if it[0].isupper()}
                         | {"answers", "audit", "audit_text", "outcomes"})

    def test_refusals_cross_processes(self):
        with multiprocessing.get_context("spawn").Pool(1) as pool:
            for call, given, wanted in (
                (Chain, (100, 100, 1), Refused(Status.BAD_EPOCH)),
                (audit, (b"[",), LogRefused(Status.NOT_JSON, 1)),
            ):
                with self.assertRaises(Refused) as caught:
                    pool.apply(call, given)
                self.assertEqual(caught.exception, wanted)

    def test_handles_are_not_copied(self):
        for handle in (Audit(), Chain(100, 200, 1), GrvQueue(QueueConfig(1, 1, 1)), Watch(5)):
            for copied in (copy.copy, copy.deepcopy, pickle.dumps):
                with self.assertRaisesRegex(TypeError, "cannot be copied or pickled"):
                    copied(handle)


class OfInputs(unittest.TestCase):
    def refused(self, error, cases):
        for name, call in cases.items():
            with self.subTest(name), self.assertRaises(error):
                call()

    def test_wrong_types(self):
        chain, queue = Chain(100, 200, 1), GrvQueue(QueueConfig(10, 5, 3))
        self.refused(TypeError, {
            "operations": lambda: outcomes(QueueConfig(10, 5, 3), [None, 3]),
            "an offer": lambda: outcomes(QueueConfig(10, 5, 3), [Offer(3)]),
            "a configuration": lambda: GrvQueue((10, 5, 3)),
            "another": lambda: outcomes(None, []),
            "asks": lambda: answers(100, 200, 1, [(0, 1, 5)]),
            "a text of a number": lambda: chain.ask(0, "1", 5),
            "a fraction": lambda: chain.ask(0, 1, 5.0),
            "none": lambda: queue.window(None),
            "a truth as a number": lambda: audit(b"", complete=True),
            "a number as a truth": lambda: audit_text(b"", all=1),
            "use_min": lambda: Record(1).version_for(1),
            "locked": lambda: Record(1, "no").version_for(),
            "a report": lambda: Record(1).after_report(None),
            "metadata": lambda: Record(1, metadata=[0] * 10),
            "a priority": lambda: queue.offer(1, 0, "BATCH"),
            "a tag": lambda: queue.throttle(Priority.BATCH, 7, 1),
            "a list as a tag": lambda: queue.set_throttle(Priority.BATCH, [1], 1, 1),
            "a log": lambda: audit(None),
            "a file": lambda: audit(io.BytesIO()),
            "a file of lines": lambda: audit_text(io.StringIO('{"client":"a","read":1}')),
            "another enum": lambda: audit([Call(Status.NO_PROXY, 1, 1)]),
            "another priority": lambda: queue.offer(1, 0, Member.CLIENT),
            "a text that is shown of bytes": lambda: audit_text(b"{}", show=""),
            "a text that is shown of calls": lambda: audit_text([], show="a"),
            "a path": lambda: audit(Path("log")),
            "lines": lambda: audit([b'{"read":1}']),
            "a text of lines": lambda: audit(['{"read":1}']),
            "a piece": lambda: Audit().push(None),
            "a piece of calls": lambda: Watch(5).push([Call(Member.READ, 1, 1)]),
            "a number as all": lambda: Audit(all=1),
            "idle": lambda: Watch(5).tell(1),
            "json": lambda: Watch(5, json=None),
            "a key": lambda: Watch(5, key=7),
            "a number as a key": lambda: audit(b"", key=0),
            "a number as totals": lambda: audit_text(b"", totals=1),
            "a number as json": lambda: Audit(json=0),
            "a text that is shown": lambda: Audit(show="node"),
            "bytes that are shown": lambda: Watch(5, show=[b"node"]),
            "nothing that is shown": lambda: audit_text(b"", show=None),
            "no bound": lambda: Watch(None),
            "what is kept": lambda: Watch.restore(None, 5),
            "no bound of what is kept": lambda: Watch.restore("", None),
            "a kind": lambda: audit([Call("READ", 1, 1)]),
        })
        self.assertEqual(queue.offer(1).waits, (0, 1, 0))

    def test_wrong_values(self):
        chain, queue = Chain(100, 200, 1), GrvQueue(QueueConfig(10, 5, 3))
        self.refused(ValueError, {
            "below 0": lambda: chain.ask(0, -1, 0),
            "above 64 bits": lambda: chain.ask(0, 1 << 64, 0),
            "above 32 bits": lambda: chain.ask(1 << 32, 1, 0),
            "a short metadata version": lambda: Record(1, metadata=b"1"),
            "no such priority": lambda: queue.offer(1, 0, 3),
            "a rate below 0": lambda: queue.set_rates(-1, 0),
            "a margin below 0": lambda: audit(b"", margin=-1),
            "a start below 0": lambda: Audit(complete=-1),
            "a bound below 0": lambda: Watch(-1),
            "a bound below 0 of what is kept": lambda: Watch.restore(b"", -1),
            "a margin above 64 bits": lambda: Watch(5, margin=1 << 64),
            "a comma in what is shown": lambda: Audit(show=["a", "b,c"]),
            "an empty name that is shown": lambda: Watch(5, show=["a", ""]),
            "a key of calls": lambda: audit([Call(Member.READ, 1, 1)], key="k"),
            "what is shown of calls": lambda: audit_text([Call(Member.READ, 1, 1)], show=["k"]),
            "a key that is no text": lambda: Audit(key="\ud800"),
            "a client above 32 bits": lambda: audit([Call(Member.READ, 1, client=1 << 32)]),
            "a teller above 32 bits": lambda: audit([Call(Member.LEARN, client=1, teller=1 << 32)]),
            "no such member": lambda: audit([Call(10, 1, 1)]),
            "an end and no begin": lambda: audit([Call(Member.READ, 1, 1, ended=2)]),
            "a read of no version": lambda: audit([Call(Member.READ, client=1)]),
            "a teller of a read": lambda: audit([Call(Member.READ, 1, 1, teller=1)]),
            "a learn without a teller": lambda: audit([Call(Member.LEARN, client=1)]),
            "a learn of a version": lambda: audit([Call(Member.LEARN, 1, 1, teller=1)]),
        })

    def test_what_is_like_a_value(self):
        class Two:
            def __index__(self):
                return 2

        chain = Chain(100, 200, Two())
        self.assertEqual(chain.ask(Two().__index__() - 1, 1, Two()).at, 2)
        record = Record(1, metadata=bytearray(b"0123456789"))
        self.assertEqual((hash(record), record.metadata), (hash(record), b"0123456789"))
        self.assertIsInstance(record.metadata, bytes)
        self.assertEqual(Record(0).after_report(record), record)
        last = 2**32 - 1
        self.assertEqual(audit([Call(Member.READ, 1, last), Call(Member.LEARN, None, 1, teller=last)],
                               key=""), [])

    def test_the_version_of_the_library(self):
        with mock.patch.object(_library, "VERSION", _library.VERSION + 1):
            _library._loaded()
        self.assertEqual(package.__version__, "0.4.0")
        its_own = _library.VERSION
        for other in (its_own + 100, its_own - 100):
            said = f"its version is {its_own}, and the package's {other}"
            with mock.patch.object(_library, "VERSION", other):
                with self.assertRaisesRegex(ImportError, said):
                    _library._loaded()

    def test_a_library_that_cannot_be_loaded(self):
        with tempfile.TemporaryDirectory() as room:
            text = Path(room, "libfdb_read_version.so")
            text.write_text("no library")
            found = str(Path(package.__file__).parents[1])
            # (the last is a library, but another one)
            for named, path in ((room, text), (str(text), text), ("nowhere.so", "/nowhere.so"),
                                (_ctypes.__file__, _ctypes.__file__)):
                env = {**os.environ, "PYTHONPATH": found, "FDB_READ_VERSION_LIB": named}
                words = [sys.executable, "-c", "import fdb_read_version"]
                ran = subprocess.run(words, cwd="/", env=env, stderr=subprocess.PIPE, text=True)
                said = ran.stderr.splitlines()[-1]
                self.assertIn(f"ImportError: {path} ", said)
                self.assertTrue(said.endswith(
                    ": make it with tools/bindings, or set FDB_READ_VERSION_LIB to its path"), said)


if __name__ == "__main__":
    unittest.main()
