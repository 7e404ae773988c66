"""What each function answers, in each field, as it was worked out by hand from the header's text."""
import contextlib
import ctypes
import io
import json
import subprocess
import sys
import tempfile
import unittest
from pathlib import Path
from unittest import mock

from fdb_read_version import *
from fdb_read_version import __main__ as program

SYSTEM, DEFAULT, BATCH = Priority
LAST = 2**63 - 1


class Cases(unittest.TestCase):
    def refused(self, status, call, *given, expected=0):
        with self.assertRaises(Refused) as caught:
            call(*given)
        self.assertEqual(caught.exception, Refused(status, expected))


class OfTheChain(Cases):
    # Two proxies; the second asks first.
    ASKED = [
        (Ask(1, 1, 50), Issued(0, 1, 1, 0, 100, 200, 50, True)),
        (Ask(1, 1, 99, 7), Issued(0, 1, 1, 0, 100, 200, 50, False)),
        (Ask(0, 1, 80), Issued(1, 0, 1, 0, 200, 230, 80, True)),
        (Ask(1, 2, 81, 1), Issued(2, 1, 2, 1, 230, 231, 81, True)),
        (Ask(1, 1, 82), Refused(Status.FORGOTTEN)),
        (Ask(1, 9, 82), Refused(Status.EARLY, 3)),
        (Ask(2, 1, 82), Refused(Status.UNKNOWN_PROXY)),
        # A moment that goes back counts as none, and 5,000,000 is the most.
        (Ask(0, 2, 81), Issued(3, 0, 2, 0, 231, 232, 81, True)),
        (Ask(0, 3, 9_000_000), Issued(4, 0, 3, 0, 232, 5_000_232, 9_000_000, True)),
    ]

    def test_requests(self):
        asks = [ask for ask, _ in self.ASKED]
        self.assertEqual(answers(100, 200, 2, asks), [answer for _, answer in self.ASKED])
        self.assertEqual(answers(100, 200, 2, iter(())), [])
        with Chain(100, 200, 2) as chain:
            for ask, answer in self.ASKED:
                given = (ask.proxy, ask.num, ask.at, ask.processed)
                if isinstance(answer, Refused):
                    self.refused(answer.status, chain.ask, *given, expected=answer.expected)
                else:
                    self.assertEqual(chain.ask(*given), answer)

    def test_ends(self):
        for status, epoch in (
            (Status.BAD_EPOCH, (100, 100, 1)),
            (Status.BAD_EPOCH, (0, LAST + 1, 1)),
            (Status.BAD_EPOCH, (100, 100, 0)),
            (Status.NO_PROXY, (100, 200, 0)),
            (Status.NO_PROXY, (100, 200, 65)),
        ):
            self.refused(status, Chain, *epoch)
            self.refused(status, answers, *epoch, [])
        chain = Chain(LAST - 1, LAST, 64)
        self.assertEqual(chain.ask(63, 1, 0), Issued(0, 63, 1, 0, LAST - 1, LAST, 0, True))
        self.refused(Status.EXHAUSTED, chain.ask, 0, 1, 0)


class OfTheRegister(unittest.TestCase):
    def test_reports(self):
        first, zeros = Record(100), Record(150, False, bytes(10), 7)
        metadata = b"0123456789"
        second = Record(200, True, metadata, 150)
        self.assertEqual((first.locked, first.metadata, first.min_known), (False, None, 0))
        self.assertEqual(first.after_report(second), second)
        self.assertEqual(second.after_report(Record(150, min_known=180)),
                         Record(200, True, metadata, 180))
        self.assertEqual(first.after_report(zeros), zeros)
        self.assertEqual(zeros.after_report(Record(151)), Record(151, False, None, 7))
        self.assertEqual((second.version_for(), second.version_for(True)), (200, 150))


class OfTheQueue(Cases):
    def queue(self, normal=10, batch=5, room=3):
        queue = GrvQueue(QueueConfig(normal, batch, room))
        self.addCleanup(queue.close)
        return queue

    def test_offers_and_windows(self):
        queue = self.queue()
        self.assertEqual(queue.offer(3, 1), Outcome(0, 0, (0, 1, 0)))
        self.assertEqual(queue.offer(2, 2, BATCH), Outcome(0, 0, (0, 1, 1)))
        self.assertEqual(queue.offer(payload=3, priority=SYSTEM), Outcome(0, 0, (1, 1, 1)))
        pushed = Outcome(0, 0, (2, 1, 0), out=Request(2, 2, BATCH))
        self.assertEqual(queue.offer(1, 4, SYSTEM), pushed)
        for status, given in (
            (Status.FULL, (1, 5, BATCH)),
            (Status.BAD_COUNT, (0,)),
            (Status.BAD_COUNT, (100_001, 0, SYSTEM)),
            (Status.BAD_COUNT, (21, 0, BATCH)),
        ):
            self.refused(status, queue.offer, *given)
        # Of 10 transactions in two seconds 5 start, and of 5 as many.
        row = (Request(1, 3, SYSTEM), Request(1, 4, SYSTEM), Request(3, 1, DEFAULT))
        self.assertEqual(queue.window(1_000_000), Outcome(5_000_000, 0, (0, 0, 0), row))
        for elapsed in (0, 10_000_001):
            self.refused(Status.BAD_CONFIG, queue.window, elapsed)
        # Nothing waits, so that the budgets are 10 transactions at most.
        self.assertEqual(queue.window(10_000_000), Outcome(20_000_000, 20_000_000, (0, 0, 0)))
        queue.offer(2**16, 2**64 - 1)
        taken = Outcome(20_000_000, 20_000_000, (0, 0, 0), out=Request(2**16, 2**64 - 1, DEFAULT))
        self.assertEqual(queue.pop(), taken)
        self.assertEqual(queue.pop().out, None)
        self.refused(Status.BATCH_THROTTLED, self.queue(batch=0).offer, 1, 0, BATCH)
        for config in ((0, 5, 3), (100_001, 5, 3), (10, 100_001, 3), (10, 5, 0), (10, 5, 100_001)):
            self.refused(Status.BAD_CONFIG, self.queue, *config)

    def test_a_window_starts_10_000_at_most(self):
        queue = self.queue(room=10_001)
        for payload in range(10_001):
            queue.offer(payload=payload, priority=SYSTEM)
        started = queue.window(1000).started
        self.assertEqual([it.payload for it in started], list(range(10_000)))
        self.assertEqual(queue.pop().out, Request(1, 10_000, SYSTEM))

    def test_waits(self):
        queue = self.queue()
        self.assertIsNone(queue.waits(1_000_000))
        queue.offer(30)
        # A window lets 10 start, and each second grants 5 to the budget.
        self.assertEqual([queue.waits(it) for it in (1_000_000, 2_000_000, 10_000_000)], [4, 2, 1])
        self.assertIsNone(queue.waits(0))
        soon = self.queue(30)
        soon.offer(30)
        self.assertEqual(soon.waits(1), 0)

    def test_rates(self):
        queue = self.queue(20, 5, 9)
        for payload, count in enumerate((30, 5, 21)):
            queue.offer(count, payload, BATCH)
        self.refused(Status.BAD_CONFIG, queue.set_rates, 0, 5)
        self.assertEqual(queue.set_rates(20, 1), [])
        two = [TurnedAway(Status.BAD_COUNT, Request(30, 0, BATCH)),
               TurnedAway(Status.BAD_COUNT, Request(21, 2, BATCH))]
        self.assertEqual(queue.set_rates(10, 1), two)
        one = [TurnedAway(Status.BATCH_THROTTLED, Request(5, 1, BATCH))]
        self.assertEqual(queue.set_rates(10, 0), one)
        queue.offer(30)
        self.assertEqual(queue.waits(1_000_000), 4)
        queue.set_rates(20, 0)
        self.assertEqual(queue.waits(1_000_000), 1)

    def test_throttles(self):
        queue = self.queue()
        queue.set_throttle(DEFAULT, "é", 9, 50)
        queue.set_throttle(BATCH, b"\xff", 2**40, 51)
        for tag in ("é", "é".encode(), bytearray("é", "utf-8"), memoryview("é".encode())):
            self.assertEqual(queue.throttle(DEFAULT, tag, 49), Limit(rate=9, expires=50))
        self.assertIsNone(queue.throttle(DEFAULT, "é", 50))
        self.assertIsNone(queue.throttle(BATCH, "é", 49))
        queue.set_throttle(DEFAULT, "é" * 8, 1, 2)
        self.refused(Status.TAG_TOO_LONG, queue.set_throttle, DEFAULT, "é" * 9, 1, 2)
        queue.forget_throttles(50)
        self.assertIsNone(queue.throttle(DEFAULT, "é", 49))
        self.assertEqual(queue.throttle(BATCH, b"\xff", 50), Limit(2**40, 51))

    def test_all_at_once(self):
        ops = [Offer(Request(10, 1)), Offer(Request(2, 2)), Offer(Request(0, 3)), Window(1000),
               Window(2_000_000), Offer(Request(1, 4, SYSTEM)), Window(0), Pop()]
        # 10 start, which the rate pays for; then 2, and 8 remain of the 10 of two seconds.
        self.assertEqual(outcomes(QueueConfig(10, 5, 3), ops), [
            Outcome(0, 0, (0, 1, 0)),
            Outcome(0, 0, (0, 2, 0)),
            Outcome(0, 0, (0, 2, 0), status=Status.BAD_COUNT),
            Outcome(0, 0, (0, 1, 0), (Request(10, 1),)),
            Outcome(16_000_000, 6_000_000, (0, 0, 0), (Request(2, 2),)),
            Outcome(16_000_000, 6_000_000, (1, 0, 0)),
            Outcome(16_000_000, 6_000_000, (1, 0, 0), status=Status.BAD_CONFIG),
            Outcome(16_000_000, 6_000_000, (0, 0, 0), out=Request(1, 4, SYSTEM)),
        ])
        self.assertEqual(outcomes(QueueConfig(10, 5, 3), iter(())), [])
        self.refused(Status.BAD_CONFIG, outcomes, QueueConfig(0, 5, 3), ops)


class OfHandles(unittest.TestCase):
    def test_closed(self):
        chain, queue = Chain(100, 200, 1), GrvQueue(QueueConfig(10, 5, 3))
        found, watch = Audit(), Watch(5)
        handles = [chain, queue, found, watch]
        self.assertFalse(any(it.closed for it in handles))
        with chain, queue, found, watch:
            pass
        chain.close()
        self.assertTrue(all(it.closed for it in handles))
        for call, given in (
            (chain.ask, (0, 1, 0)),
            (queue.offer, ()),
            (queue.window, (1,)),
            (queue.pop, ()),
            (queue.set_rates, (1, 1)),
            (queue.waits, (1,)),
            (queue.set_throttle, (BATCH, b"", 1, 1)),
            (queue.throttle, (BATCH, b"", 1)),
            (queue.forget_throttles, (1,)),
            (found.push, (b"",)),
            (found.end, ()),
            (found.text, ()),
            (found.objects, ()),
            (found.faults, ()),
            (watch.push, (b"",)),
            (watch.tell, ()),
            (watch.end, ()),
            (watch.text, ()),
            (watch.objects, ()),
            (watch.warnings, ()),
            (watch.keep, ()),
            (watch.counts, ()),
            (Chain.__new__(Chain).ask, (0, 1, 0)),
        ):
            with self.assertRaisesRegex(ValueError, "is closed"):
                call(*given)
        # One that is opened again is a new one.
        chain.__init__(7, 8, 1)
        self.assertEqual(chain.ask(0, 1, 0).version, 8)

    def test_what_is_closed_is_freed(self):
        library = ctypes.CDLL(None)
        if not hasattr(library, "mallinfo2"):
            self.skipTest("this C library does not count its memory")

        class Counts(ctypes.Structure):
            _fields_ = [(str(it), ctypes.c_size_t) for it in range(10)]

        library.mallinfo2.restype = Counts
        config, text = QueueConfig(1, 1, 1), KEPT[0] % (2, 2) + KEPT[1]

        def restored(behind):
            watch = Watch.restore(text, behind)
            self.assertEqual(watch.keep(), text)
            return watch

        for kind, given, again in (
            (Chain, (100, 200, 64), (0, 1, 1)),
            (GrvQueue, (config,), (config,)),
            (Audit, (), ()),
            (Watch, (5,), (6,)),
            (restored, (5,), (6,)),
        ):
            closed = lambda it: it.close()
            for ends in ([closed], [lambda it: it.__init__(*again), closed], []):
                kept, before = [], library.mallinfo2()
                for _ in range(1000):
                    made = kind(*given)
                    for end in ends:
                        end(made)
                    kept.append(made._raw)
                    # (the last reference)
                    del made
                grown = getattr(library.mallinfo2(), "7") - getattr(before, "7")
                self.assertLess(grown, 1000 * 40, "bytes that are not freed")


def timed(kind, version, client, began, ended):
    return Call(kind, version, client, began, ended)


KEYED = """\
{"client":"a","commit":200,"began":10,"ended":14,"é":"x","node":[1]}
{"client":"b","read":100,"began":15,"ended":16,"é":"y","node":2}
{"client":"c","read":100,"began":16,"ended":17,"é":"x"}
"""
KEYED_SAID = ('audit fault: Order 3: client "c" read 100 "é":"x"%s, but 200 was known: line 1 '
              '(client "a", commit 200 "é":"x"%s) had ended 2 before line 3 began\n')
KEYED_AT = ('{"line":3,"client":"c","read":100,"began":16,"ended":17,'
            '"members":{"é":"x","node":null,"nods":null}}')
KEYED_BY = ('{"line":1,"client":"a","commit":200,"began":10,"ended":14,'
            '"members":{"é":"x","node":[1],"nods":null}}')
KEYED_FAULT = (f'{{"fault":"Order","at":{KEYED_AT},"late":2,"first":{KEYED_BY},"reason":"known",'
               f'"known":200,"by":{KEYED_BY},"means":"ended"}}\n')
KEYED_TOTALS = """\
{"total":{"lines":3,"timed":3,"reads":2,"commits":1,"asks":0,"reports":0,"learns":0,"unreported":2,\
"ordered":1},"arguments":{"complete":null,"margin":0,"by_key":true,"members":["é","node","nods"]}}
{"faults":1,"Order":1,"Wrong":0,"NotAbove":0,"Twice":0,"Stray":0}
{"client":"c","faults":1,"Order":1,"Wrong":0,"NotAbove":0,"Twice":0,"Stray":0}
{"members":{"é":"x"},"faults":1,"Order":1,"Wrong":0,"NotAbove":0,"Twice":0,"Stray":0}
{"members":{"node":null},"faults":1,"Order":1,"Wrong":0,"NotAbove":0,"Twice":0,"Stray":0}
{"members":{"nods":null},"faults":1,"Order":1,"Wrong":0,"NotAbove":0,"Twice":0,"Stray":0}
"""


class OfLogs(unittest.TestCase):
    def test_each_reason(self):
        calls = [
            Call(Member.ASK, 7, 5),
            Call(Member.LEARN, client=6, teller=5),
            Call(Member.ASK, 7, 6),  # not above 7, and drawn by line 0
            Call(Member.REPORT, 8, 6),  # nobody drew 8
            Call(Member.READ, 9, 5),  # nobody reported 9
            Call(Member.READ, 5, 5),  # it had read 9, line 4
            Call(Member.READ, 1, 7),  # all began with 2
            Call(Member.REPORT, 7, 8),  # line 0 drew 7
            Call(Member.COMMIT, 6, 5),  # it had read 9, line 4
            Call(Member.READ, 6, 5),  # so too; line 8 knew 9 when it reported 6
        ]
        nine = Known(9, Means.OWN, 4)
        wanted = {
            Fault(0, FaultKind.TWICE, Reason.DRAWN, 2),
            Fault(2, FaultKind.NOT_ABOVE, Reason.KNOWN, None, Known(7, Means.LEARNT, 0, 1)),
            Fault(2, FaultKind.TWICE, Reason.DRAWN, 0),
            Fault(3, FaultKind.STRAY, Reason.UNDRAWN),
            Fault(4, FaultKind.WRONG, Reason.UNREPORTED),
            Fault(5, FaultKind.ORDER, Reason.KNOWN, None, nine),
            Fault(5, FaultKind.WRONG, Reason.UNREPORTED),
            Fault(6, FaultKind.ORDER, Reason.KNOWN, None, Known(2, Means.START)),
            Fault(6, FaultKind.WRONG, Reason.UNREPORTED),
            Fault(7, FaultKind.STRAY, Reason.DRAWN, 0),
            Fault(8, FaultKind.NOT_ABOVE, Reason.KNOWN, None, nine),
            Fault(9, FaultKind.ORDER, Reason.KNOWN, None, nine),
            Fault(9, FaultKind.WRONG, Reason.REPORTED, 8, nine),
        }
        found = audit(iter(calls), complete=2)
        self.assertEqual([it.place for it in found], sorted(it.place for it in wanted))
        self.assertEqual(set(found), wanted)

    def test_times(self):
        # Above 32 bits, so that nothing may be cut off.
        far, version = 2**33, 2**63 + 2**40
        calls = [timed(Member.COMMIT, version, 1, 0, far), timed(Member.READ, 1, 2, 2 * far, None)]
        known = Fault(1, FaultKind.ORDER, Reason.KNOWN, None, Known(version, Means.ENDED, 0),
                      Late(0, far))
        self.assertEqual(audit(calls), [known])
        self.assertEqual(audit(calls, margin=far - 1), [known])
        self.assertEqual(audit(calls, margin=far), [])
        # The end of the first is not known.
        self.assertEqual(audit([Call(Member.COMMIT, 2, began=0), calls[1]]), [])
        self.assertEqual(audit([Call(Member.READ, 7, 1)]), [])
        self.assertEqual(len(audit([Call(Member.READ, 7, 1)], complete=0)), 1)
        self.assertEqual(audit([]), [])

    def test_how_late(self):
        found = audit([
            timed(Member.COMMIT, 300, 1, 10, 20),
            timed(Member.READ, 200, 2, 5, 13),  # outdates the next, before the first does
            timed(Member.READ, 100, 3, 50, 51),  # 37 after that
            timed(Member.READ, 250, 1, 20, 55),  # begins where its own client's commit had ended
            timed(Member.COMMIT, 300, 4, 51, 52),  # not above its own version, of the first line
            timed(Member.ASK, 9, 5, 60, 61),  # the read of 200 was the first above 9
            timed(Member.ASK, 9, 5, 60, 62),  # so too; and both are drawn twice
        ])
        self.assertEqual([(it.place, it.kind.name, it.late) for it in found], [
            (2, "ORDER", Late(1, 37)), (3, "ORDER", Late(0, 0)), (4, "NOT_ABOVE", Late(0, 31)),
            (5, "NOT_ABOVE", Late(1, 47)), (5, "TWICE", None),
            (6, "NOT_ABOVE", Late(1, 47)), (6, "TWICE", None),
        ])

    def test_keys(self):
        known = Known(200, Means.ENDED, 0)
        order = Fault(2, FaultKind.ORDER, Reason.KNOWN, None, known, Late(0, 2))
        self.assertEqual([it.place for it in audit(KEYED)], [1, 2])
        self.assertEqual(audit(KEYED, key=""), audit(KEYED))
        self.assertEqual(audit_text(KEYED, key="é"), KEYED_SAID % ("", ""))
        for key in ("é", "é".encode()):
            self.assertEqual(audit(KEYED, key=key), [order])
            with Audit(key=key) as found:
                found.push(KEYED)
                self.assertEqual((found.end(), found.faults()), (Status.FAULT, [order]))
                self.assertEqual(found.text(), KEYED_SAID % ("", ""))
        for log, wanted in (
            ('{"client":"a","read":1,"é":[]}', LogRefused(Status.BAD_MEMBER, 1, Member.KEY)),
            ('{"client":"a","read":1}\n{"client":"a","learn":"a"}',
             LogRefused(Status.BAD_MEMBER, 2, Member.LEARN)),
        ):
            for call in (audit, audit_text):
                with self.assertRaises(LogRefused) as caught:
                    call(log, key="é")
                self.assertEqual(caught.exception, wanted)
        for call in (Audit, lambda key: audit(KEYED, key=key)):
            with self.assertRaises(Refused) as caught:
                call(key=b"\xff")
            self.assertEqual(caught.exception, Refused(Status.BAD_MEMBER))

    def test_what_is_shown(self):
        asked = {"key": "é", "show": ["node", "nods"]}
        said = KEYED_SAID % ("", ' "node":[1]')
        counts = "faults 1 Order 1 Wrong 0 NotAbove 0 Twice 0 Stray 0\n"
        totals = ("audit total lines 3 timed 3 reads 2 commits 1 asks 0 reports 0 learns 0 "
                  "unreported 2 ordered 1\n" + "".join(f"audit total {it}{counts}" for it in (
                      "", 'client "c" ', '"é":"x" ', 'no "node" ', 'no "nods" ')))
        for wanted, text in (
            ({}, said),
            ({"totals": True}, totals),
            ({"all": True, "totals": True}, said + totals),
            ({"totals": True, "json": True}, KEYED_TOTALS),
            ({"json": True}, KEYED_FAULT),
            ({"json": True, "all": True, "totals": True}, KEYED_FAULT + KEYED_TOTALS),
        ):
            self.assertEqual(audit_text(KEYED, **asked, **wanted), text)
            with Audit(**asked, **wanted) as found:
                found.push(KEYED)
                self.assertEqual((found.end(), found.text()), (Status.FAULT, text))
                if "json" in wanted:
                    self.assertEqual(found.objects(), [json.loads(it) for it in text.splitlines()])
        fine = KEYED.split("\n")[0]
        self.assertEqual(audit_text(fine, **asked, totals=True, history=True),
                         "audit ok lines 1 timed 1 reads 0 commits 1 asks 0 reports 0 learns 0 "
                         "unreported 0 ordered 0\n"
                         'history 0 ask 200 line 1 client "a" "é":"x" "node":[1]\n'
                         'history 1 report 200 line 1 client "a" "é":"x" "node":[1]\n')

    def test_texts(self):
        fine = '{"client":"é","commit":1}\n{"client":"é","read":1}'
        ok = ("audit ok lines 2 timed 0 reads 1 commits 1 asks 0 reports 0 learns 0 "
              "unreported 0\n")
        history = ("history 0 ask 1 line 1 client \"é\"\nhistory 1 report 1 line 1 client \"é\"\n"
                   "history 2 read 1 line 2 client \"é\"\n")
        stale = '{"client":"é","read":2}\n{"client":"é","read":1}\n{"client":"é","read":0}'
        faults = ['audit fault: Order 2: client "é" read 1, but 2 was known: line 1 '
                  '(client "é", read 2) is an earlier call of its client\n',
                  'audit fault: Order 3: client "é" read 0, but 2 was known: line 1 '
                  '(client "é", read 2) is an earlier call of its client\n']
        for wanted, said, found in (
            ({}, ok, faults[0]),
            ({"all": True}, ok, "".join(faults)),
            ({"history": True}, ok + history, faults[0]),
            ({"all": True, "history": True}, ok + history, "".join(faults)),
        ):
            for given in (str, str.encode, lambda it: bytearray(it, "utf-8"),
                          lambda it: memoryview(it.encode())):
                self.assertEqual(audit_text(given(fine), **wanted), said)
                self.assertEqual(audit_text(given(stale), **wanted), found)
        self.assertTrue(audit_text([Call(Member.READ, 1, 7), Call(Member.READ, 0, 7)])
                        .startswith("audit fault: Order 2: client 7 read 0, but 1 was known: "))
        calls = [Call(Member.READ, 2, 7), Call(Member.READ, 1, 7)]
        counts = "faults 1 Order 1 Wrong 0 NotAbove 0 Twice 0 Stray 0\n"
        self.assertEqual(audit_text(calls, totals=True),
                         "audit total lines 2 timed 0 reads 2 commits 0 asks 0 reports 0 learns 0 "
                         f"unreported 2\naudit total {counts}audit total client 7 {counts}")
        self.assertEqual(audit_text(calls, json=True),
                         '{"fault":"Order","at":{"line":2,"client":7,"read":1},"reason":"known",'
                         '"known":2,"by":{"line":1,"client":7,"read":2},"means":"own"}\n')
        # More than the first guess of how long a text is.
        lines = "\n".join('{"client":"a","read":%d}' % it for it in range(1000, 0, -1))
        self.assertEqual(audit_text(lines, all=True).count("\n"), 999)
        self.assertEqual([it.place for it in audit(lines)], list(range(1, 1000)))

    def test_refusals(self):
        line = b'{"client":"a","read":1}\n'
        for log, wanted in (
            (b"", LogRefused(Status.EMPTY, 0)),
            (line + b" " * 1_048_577, LogRefused(Status.TOO_LONG, 2)),
            (line + b"[", LogRefused(Status.NOT_JSON, 2)),
            (line * 2 + b"{}", LogRefused(Status.NO_CALL, 3)),
            (b'{"read":1,"ask":1}', LogRefused(Status.TWO_CALLS, 1)),
            (line + b'{"read":1,"began":1,"ended":2}', LogRefused(Status.SOME_TIMES, 2)),
            (b'{"read":1}', LogRefused(Status.BAD_MEMBER, 1, Member.CLIENT)),
            (b'{"client":"a","read":""}', LogRefused(Status.BAD_MEMBER, 1, Member.READ)),
            (b'{"client":"a","commit":-1}', LogRefused(Status.BAD_MEMBER, 1, Member.COMMIT)),
            (b'{"client":"a","ask":null}', LogRefused(Status.BAD_MEMBER, 1, Member.ASK)),
            (b'{"client":"a","report":[]}', LogRefused(Status.BAD_MEMBER, 1, Member.REPORT)),
            (b'{"client":"a","learn":"b"}', LogRefused(Status.BAD_MEMBER, 1, Member.LEARN)),
            (b'{"read":1,"ended":1}', LogRefused(Status.BAD_MEMBER, 1, Member.BEGAN)),
            (b'{"read":1,"began":2,"ended":1}', LogRefused(Status.BAD_MEMBER, 1, Member.ENDED)),
            ([Call(Member.READ, 1)], LogRefused(Status.BAD_MEMBER, 1, Member.CLIENT)),
            ([Call(Member.BEGAN, 1, 1)], LogRefused(Status.NO_CALL, 1)),
            ([Call(Member.READ, 1, 1), Call(Member.LEARN, client=2, teller=2)],
             LogRefused(Status.BAD_MEMBER, 2, Member.LEARN)),
            ([timed(Member.READ, 1, 1, 2, 1)], LogRefused(Status.BAD_MEMBER, 1, Member.ENDED)),
            ([timed(Member.READ, 1, 1, 2, 3), Call(Member.READ, 1, 1)],
             LogRefused(Status.SOME_TIMES, 2)),
        ):
            for call in (audit, audit_text):
                with self.assertRaises(LogRefused, msg=log[-30:]) as caught:
                    call(log)
                self.assertEqual(caught.exception, wanted)
        self.assertEqual(str(wanted), "SOME_TIMES 2")
        self.assertEqual(str(LogRefused(Status.BAD_MEMBER, 1, 8)), "BAD_MEMBER 1 ended")

    def test_pieces(self):
        fine = '{"client":"é","commit":1}\n{"client":"é","read":1}\n'.encode()
        for log, asked, verdict in (
            (fine, {"history": True}, Status.OK),
            (fine + b'{"client":"a","read":0}', {"complete": 1}, Status.FAULT),
            (fine + '{"client":"é","read":0}'.encode(), {"all": True}, Status.FAULT),
            (b'{"client":"a","read":0,"began":1,"ended":2}', {"margin": 2**40}, Status.OK),
        ):
            told = {key: it for key, it in asked.items() if key in ("complete", "margin")}
            for size in (1, 7, len(log)):
                with Audit(**asked) as found:
                    for at in range(0, len(log), size):
                        found.push(bytearray(log[at:at + size]))
                    self.assertEqual((found.text(), found.faults()), ("", []))
                    self.assertEqual(found.end(), verdict)
                    for _ in range(2):
                        self.assertEqual(found.text(), audit_text(log, **asked))
                        self.assertEqual(found.faults(), audit(log, **told))
                    for call, given in ((found.push, (b"",)), (found.end, ())):
                        with self.assertRaises(Refused) as caught:
                            call(*given)
                        self.assertEqual(caught.exception, Refused(Status.OVER))
                    self.assertEqual(found.text(), audit_text(log, **asked))

    def test_refused_pieces(self):
        found = Audit()
        found.push('{"client":"a","read":1}\n{"read":')
        with self.assertRaises(LogRefused) as caught:
            found.push("1}\n{")
        self.assertEqual(caught.exception, LogRefused(Status.BAD_MEMBER, 2, Member.CLIENT))
        with self.assertRaises(Refused) as caught:
            found.push("{}")
        self.assertEqual(caught.exception, Refused(Status.OVER))
        self.assertEqual((found.text(), found.faults()), ("", []))
        for piece, status in (("", Status.EMPTY), ("[", Status.NOT_JSON)):
            found, wanted = Audit(), LogRefused(status, len(piece))
            found.push(piece)
            with self.assertRaises(LogRefused) as caught:
                found.end()
            self.assertEqual(caught.exception, wanted)

    def test_program(self):
        stale = b'{"client":"a","read":2}\n{"client":"a","read":1}\n{"client":"a","read":1}\n'
        of_json = {"json": True, "totals": True}
        with tempfile.TemporaryDirectory() as room:
            log = Path(room, "log")
            log.write_bytes(stale)
            for words, given, status, out, err in (
                ([log], b"", 4, audit_text(stale), ""),
                (["--all", "-"], stale, 4, audit_text(stale, all=True, totals=True), ""),
                (["--summary", "-"], stale, 4, audit_text(stale, totals=True), ""),
                (["--json", "-"], stale, 4, audit_text(stale, **of_json, all=True), ""),
                (["--json", "--all", "--summary", "-"], stale, 4, audit_text(stale, **of_json), ""),
                (["--key", "é", "--show=node,nods", "-"], KEYED.encode(), 4,
                 audit_text(KEYED, key="é", show=["node", "nods"]), ""),
                (["--json", "-"], stale[:24], 0, audit_text(stale[:24], json=True), ""),
                (["-"], stale[:24], 0, audit_text(stale[:24]), ""),
                (["--history", "-"], stale[:24], 0, audit_text(stale[:24], history=True), ""),
                (["--complete=3", "-"], stale[:24], 4, audit_text(stale[:24], complete=3), ""),
                (["-"], b"[", 1, "", "fdb_read_version: NOT_JSON 1\n"),
                ([], stale, 4, audit_text(stale), ""),
                (["--margin=5", "-"], STALE.encode(), 0, audit_text(STALE, margin=5), ""),
                (["--margin=-1", "-"], stale, 2, "", "--margin: no whole number below 2^63: -1\n"),
                (["--margin= 1_0", "-"], stale, 2, "", "--margin: no whole number below 2^63:  1_0\n"),
                (["--complete", str(LAST + 1), "-"], stale, 2, "", f"2^63: {LAST + 1}\n"),
                (["--marg=1", "-"], stale, 2, "", "unrecognized arguments: --marg=1\n"),
                (["--key=", "-"], stale, 2, "", "--key names no member\n"),
                (["--show=a,,b", "-"], stale, 2, "", "is empty or has a comma: ['a', '', 'b']\n"),
                ([f"{room}/none"], b"", 5, "", f"No such file or directory: '{room}/none'\n"),
            ):
                words = [sys.executable, "-m", "fdb_read_version", *words]
                ran = subprocess.run(words, input=given, capture_output=True)
                self.assertEqual((ran.returncode, ran.stdout.decode()), (status, out))
                self.assertTrue(ran.stderr.decode().endswith(err), ran.stderr)

    def test_program_without_memory(self):
        for error in (Refused(Status.MEMORY), MemoryError("none")):
            with mock.patch.object(program, "Audit", side_effect=error):
                with contextlib.redirect_stderr(io.StringIO()) as said:
                    self.assertEqual(program.main(["-"]), 3)
            self.assertEqual(said.getvalue(), f"fdb_read_version: {error}\n")


COMMIT = '{"client":"a","commit":200,"began":10,"ended":14%s}\n'
READ = '{"client":"é","read":100,"began":15,"ended":16%s}\n'
STALE = (COMMIT + READ).replace("%s", "")
# A line of another client, by which the end of the read is believed.
VOUCHED = '{"client":"a","read":200,"began":16,"ended":16}\n'
SAID = ('audit fault: Order %d: client "é" read 100, but 200 was known: line 1 '
        '(client "a", commit 200) had ended 1 before line %d began\n')
ALL_FINE = "audit ok lines %d reads %d commits 1 asks 0 reports 0 refused %d early 0\n"
TIMED = '{"client":"c","read":0,"began":%d,"ended":%d}\n'
# Two lines of clients that vouch for one another.
FIRST = TIMED % (90, 110) + (TIMED % (90, 110)).replace('"c"', '"d"')
CAME = ("fdb_audit: early line %d: it began %d before what had been settled; %d so far: "
        "--follow is too small, or a clock is ahead\n")
# What is kept of the stale read by a watch of 5, of which nothing is settled.
KEPT = ('{"client":"a","commit":200,"began":10,"ended":14,"kept_line":1,"kept_lines":%d,'
        '"kept_clients":%d,"kept_by":"--follow 5 --margin 0"}\n',
        '{"client":"é","read":100,"began":15,"ended":16,"kept_line":2,"kept_lines":2}\n')
ALL_EARLY = "audit early lines %d reads %d commits 0 asks 0 reports 0 refused %d early %d judged 1\n"


class OfWatches(unittest.TestCase):
    def refused(self, wanted, call, *given):
        with self.assertRaises(Refused) as caught:
            call(*given)
        self.assertEqual(caught.exception, wanted)

    def test_a_fault_is_told_once(self):
        log = (STALE + VOUCHED).encode()
        for size in (1, 9, len(log)):
            with Watch(0) as watch:
                for at in range(0, len(log), size):
                    watch.push(memoryview(log)[at:at + size])
                self.assertEqual((watch.text(), watch.tell(idle=False), watch.text()), ("",) * 3)
                self.assertEqual((watch.tell(), watch.text()), (SAID % (2, 2),) * 2)
                self.assertEqual((watch.tell(), watch.text(), watch.warnings()), ("",) * 3)
                self.assertEqual((watch.end(), watch.text()), (Status.FAULT, ""))

    def test_what_waits(self):
        watch = Watch(5, totals=True)
        watch.push(STALE)
        self.assertEqual(watch.tell(), "")
        watch.push('{"client":"b","report":200,"began":16,"ended":null}')
        self.assertEqual(watch.end(), Status.FAULT)
        said = SAID % (2, 2) + (
            "audit total lines 3 reads 1 commits 1 asks 0 reports 1 refused 0 early 0\n"
            "audit total faults 1 Order 1 Wrong 0 NotAbove 0 Twice 0 Stray 0\n"
            'audit total client "é" faults 1 Order 1 Wrong 0 NotAbove 0 Twice 0 Stray 0\n')
        self.assertEqual(watch.text(), said)
        for call, given in ((watch.push, (b"",)), (watch.tell, ()), (watch.end, ())):
            self.refused(Refused(Status.OVER), call, *given)
        self.assertEqual(watch.text(), said)

    def test_what_is_asked(self):
        watch = Watch(5, margin=1)
        watch.push(STALE)
        self.assertEqual((watch.end(), watch.text()), (Status.OK, ALL_FINE % (2, 1, 0)))
        for key, second, fault in (("é", "x", 1), ("é".encode(), "y", 0), ("", "y", 1),
                                   (None, "y", 1)):
            watch = Watch(2**40, key=key, totals=True, json=True)
            watch.push(COMMIT % ',"é":"x"' + READ % f',"é":"{second}"')
            self.assertEqual(watch.end(), Status.FAULT if fault else Status.OK)
            objects = watch.objects()
            self.assertEqual([it["fault"] for it in objects if "fault" in it], ["Order"] * fault)
            total = next(it for it in objects if "total" in it)
            self.assertEqual(total["arguments"], {
                "follow": 2**40, "margin": 0, "by_key": bool(key), "members": ["é"] if key else []})

    def test_what_is_shown(self):
        watch = Watch(5, key="é", show=("node", "nods"))
        watch.push(KEYED)
        self.assertEqual(watch.end(), Status.FAULT)
        self.assertEqual(watch.text(), KEYED_SAID % ("", ' "node":[1]'))

    def test_what_is_left_out(self):
        commit = COMMIT.replace("%s", "")
        watch = Watch(5)
        watch.push(commit + "{}\n[\n")
        self.assertEqual(watch.tell(), "")
        self.assertRegex(watch.warnings(), r"\Afdb_audit: logs refused: NoCall 2: .*\n"
                                           r"fdb_audit: logs refused: NotJson 3: .*\n\Z")
        self.refused(LogRefused(Status.NOT_JSON, 3), watch.end)
        self.assertEqual((watch.text(), watch.warnings()), (ALL_FINE % (1, 0, 2), ""))
        watch = Watch(5)
        wrong = '{"client":"b","read":true,"began":10}\n'
        watch.push(commit + wrong + READ.replace("%s", "") + "{")
        self.assertEqual((watch.end(), watch.text()), (Status.FAULT, SAID % (3, 3)))
        self.assertEqual(watch.warnings().count("\n"), 2)
        watch = Watch(5)
        watch.push(wrong)
        self.refused(LogRefused(Status.BAD_MEMBER, 1, Member.READ), watch.end)
        watch = Watch(5, key="k")
        watch.push(COMMIT % ',"k":[]')
        self.refused(LogRefused(Status.BAD_MEMBER, 1, Member.KEY), watch.end)
        self.refused(LogRefused(Status.EMPTY, 0), Watch(5).end)
        self.refused(Refused(Status.BAD_MEMBER), lambda: Watch(5, key=b"\xff"))

    def early(self, before, *after, **asked):
        """A watch of lines, of which some come once all is settled."""
        watch = Watch(5, **asked)
        watch.push(before)
        watch.tell()
        watch.push("".join(after))
        return watch

    def test_what_came_early(self):
        # It is settled up to 105; a line that began at most 5 before that is judged all the same.
        judged, left = TIMED % (100, 105), TIMED % (99, 110)
        watch = self.early(FIRST, judged)
        self.refused(LogRefused(Status.UNJUDGED, 3), watch.end)
        self.assertEqual(watch.text(), ALL_EARLY % (3, 3, 0, 1))
        self.assertEqual(watch.warnings(), CAME % (3, 5, 1))
        # The last is told that came early, and not the last of all.
        watch = self.early(FIRST, left, judged, TIMED % (105, 106))
        self.refused(LogRefused(Status.UNJUDGED, 4), watch.end)
        self.assertEqual(watch.text(), ALL_EARLY % (5, 5, 0, 2))
        self.assertEqual(watch.warnings(), CAME % (3, 6, 1) + CAME % (4, 5, 2))
        # A line that is refused goes first, and a fault before that.
        watch = self.early(FIRST + "{}\n", judged)
        self.refused(LogRefused(Status.NO_CALL, 3), watch.end)
        self.assertEqual(watch.text(), ALL_EARLY % (3, 3, 1, 1))
        self.assertEqual(watch.warnings(), CAME % (4, 5, 1))
        watch = self.early(STALE + FIRST, left, "{}\n")
        self.assertEqual(watch.end(), Status.FAULT)
        self.assertTrue(watch.warnings().startswith(CAME % (5, 6, 1)))
        watch = self.early(FIRST, left, json=True, totals=True)
        self.refused(LogRefused(Status.UNJUDGED, 3), watch.end)
        total = watch.objects()[0]["total"]
        self.assertEqual((total["lines"], total["early"], total["judged"]), (3, 1, 0))
        self.assertEqual(self.early(FIRST, TIMED % (105, 106)).end(), Status.OK)
        self.assertEqual(str(LogRefused(Status.UNJUDGED, 7)), "UNJUDGED 7")

    def test_a_clock_that_is_ahead(self):
        ahead = (TIMED % (900, 999)).replace('"c"', '"e"')
        watch = self.early(FIRST, ahead, TIMED % (111, 112))
        self.assertEqual(watch.end(), Status.OK)
        self.assertEqual(watch.text(), "audit ok lines 4 reads 4 commits 0 asks 0 reports 0 "
                                       "refused 0 early 0 ahead 1\n")
        self.assertEqual(watch.warnings(), "fdb_audit: a clock is ahead: above line 4 a line of "
                         "another client ended 887 after it; 1 so far: it is not believed\n")

    def test_what_is_kept(self):
        watch = Watch(5)
        self.assertEqual(watch.keep(), "")
        watch.push(STALE[:-3])
        self.assertEqual(watch.keep(), KEPT[0] % (1, 1))
        watch.push(STALE[-3:])
        kept = watch.keep()
        self.assertEqual(kept, KEPT[0] % (2, 2) + KEPT[1])
        self.assertEqual(watch.counts(), WatchCounts(
            lines=2, reads=1, commits=1, asks=0, reports=0, refused=0, early=0, judged=0, ahead=0,
            open=2, kept=2, newest_end=16, settled_to=0))
        self.assertEqual((watch.end(), watch.text()), (Status.FAULT, SAID % (2, 2)))
        for call in (watch.keep, watch.counts):
            self.refused(Refused(Status.OVER), call)
        for given in (kept, kept.encode(), memoryview(kept.encode())):
            watch = Watch.restore(given, 5, json=True, totals=True)
            self.assertEqual((watch.text(), watch.warnings(), watch.keep()), ("", "", kept))
            self.assertEqual(watch.counts()[:9], (0,) * 9)
            watch.push("{}\n")
            self.assertEqual(watch.end(), Status.FAULT)
            self.assertEqual(watch.objects()[0]["at"]["line"], 2)
            self.assertTrue(watch.warnings().startswith("fdb_audit: logs refused: NoCall 3: "))

    def test_what_goes_on(self):
        # Line 4 says that the clock of line 3 is right; then line 2 is settled.
        lines = [*STALE.splitlines(True), TIMED % (30, 31), TIMED.replace('"c"', '"d"') % (30, 31),
                 TIMED % (32, 33)]
        for cut in range(len(lines) + 1):
            told, watch = [], Watch(5)
            for number, line in enumerate(lines):
                if number == cut:
                    watch = Watch.restore(watch.keep(), 5)
                watch.push(line)
                told.append(watch.tell())
            self.assertEqual(told, ["", "", "", SAID % (2, 2), ""], cut)

    def test_what_is_not_kept(self):
        kept = KEPT[0] % (2, 2) + KEPT[1]
        for given, asked, wanted in (
            (kept, {"behind": 6}, LogRefused(Status.NOT_KEPT, 1)),
            (kept, {"margin": 1}, LogRefused(Status.NOT_KEPT, 1)),
            (kept, {"key": "k"}, LogRefused(Status.NOT_KEPT, 1)),
            (kept, {"show": ("a", "b")}, LogRefused(Status.NOT_KEPT, 1)),
            (kept + KEPT[1], {}, LogRefused(Status.NOT_KEPT, 3)),
            (kept[:-2], {}, LogRefused(Status.NOT_JSON, 2)),
            ('{"client":[]}\n', {}, LogRefused(Status.BAD_MEMBER, 1, Member.CLIENT)),
            (kept, {"key": b"\xff"}, Refused(Status.BAD_MEMBER)),
        ):
            self.refused(wanted, lambda: Watch.restore(given, **{"behind": 5, **asked}))
        self.assertEqual(str(LogRefused(Status.NOT_KEPT, 3)), "NOT_KEPT 3")
        self.refused(LogRefused(Status.EMPTY, 0), Watch.restore("", 5).end)

    def followed(self, *pieces, behind):
        """The status, the output and the errors of the program that follows a log of these pieces."""
        with mock.patch.object(program.os, "read", side_effect=[*map(str.encode, pieces), b""]):
            with mock.patch.object(program, "_write") as written:
                with contextlib.redirect_stderr(io.StringIO()) as said:
                    status = program.main(["--follow", behind])
        return status, "".join(it.args[0] for it in written.call_args_list), said.getvalue()

    def test_the_program(self):
        ended = self.followed(FIRST, TIMED % (100, 105), behind="5")
        said = CAME % (3, 5, 1) + "fdb_read_version: UNJUDGED 3\n"
        self.assertEqual(ended, (1, ALL_EARLY % (3, 3, 0, 1), said))
        # What was told before memory is refused is not told again.
        with mock.patch.object(Watch, "end", side_effect=Refused(Status.MEMORY)):
            ended = self.followed(STALE + VOUCHED, behind="0")
        self.assertEqual(ended, (3, SAID % (2, 2), "fdb_read_version: MEMORY\n"))


if __name__ == "__main__":
    unittest.main()
