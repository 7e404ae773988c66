"""Threads that share an object: no call is lost, none is done twice, and none ends the interpreter."""
import signal
import sys
import threading
import unittest

from fdb_read_version import *

THREADS, CALLS = 6, 200


def in_threads(call):
    """What calls in threads give or raise, which begin at one moment, by the number of each."""
    found, gate = [None] * THREADS, threading.Barrier(THREADS)

    def run(number):
        gate.wait()
        try:
            found[number] = call(number)
        except Exception as error:
            found[number] = error

    threads = [threading.Thread(target=run, args=(it,)) for it in range(THREADS)]
    for it in threads:
        it.start()
    for it in threads:
        it.join()
    return found


class OfThreads(unittest.TestCase):
    def setUp(self):
        # Threads change places as often as they can.
        self.addCleanup(sys.setswitchinterval, sys.getswitchinterval())
        sys.setswitchinterval(1e-6)

    def test_a_chain(self):
        chain = Chain(100, 200, THREADS)
        found = in_threads(lambda proxy: [chain.ask(proxy, num, 0, num - 1).version
                                          for num in range(1, CALLS + 1)])
        self.assertEqual(sorted(sum(found, [])), list(range(200, 200 + THREADS * CALLS)))

    def test_a_queue(self):
        queue = GrvQueue(QueueConfig(100_000, 100_000, 100_000))

        def used(number):
            mine = []
            for it in range(CALLS):
                queue.offer(1, number * CALLS + it, Priority(it % 3))
                queue.set_throttle(Priority.BATCH, f"{number}", it, it + 1)
                assert queue.throttle(Priority.BATCH, f"{number}", it).rate == it
                queue.forget_throttles(0)
                queue.waits(1000)
                queue.set_rates(100_000, 100_000 - it)
                out = queue.pop().out if it % 5 == 0 else None
                mine += [out] if out else queue.window(1_000_000).started
            return [it.payload for it in mine]

        found = sum(in_threads(used), []) + [it.payload for it in queue.window(1000).started]
        self.assertEqual(sorted(found), list(range(THREADS * CALLS)))

    def test_an_audit(self):
        found = Audit()
        lines = [f'{{"client":"{it}","read":{it}}}\n' for it in range(THREADS)]
        in_threads(lambda number: [found.push(lines[number]) for _ in range(20)])
        self.assertEqual((found.end(), found.faults()), (Status.OK, []))
        for text in in_threads(lambda number: found.text()):
            self.assertTrue(text.startswith(f"audit ok lines {20 * THREADS} "), text)

    def test_a_watch(self):
        watch = Watch(0)
        watch.push('{"client":"a","commit":9,"began":0,"ended":1}\n')
        stale = '{"client":"b","read":5,"began":2,"ended":2}\n'
        told = in_threads(lambda number: [watch.push(stale) or watch.tell() for _ in range(20)])
        self.assertEqual(watch.end(), Status.FAULT)
        lines = ("".join(sum(told, [])) + watch.text()).split("\n")
        self.assertEqual(len(set(lines)) - 1, 20 * THREADS)
        self.assertEqual(len(lines) - 1, 20 * THREADS)

    def test_closed_meanwhile(self):
        for make, call in (
            (lambda: Chain(100, 200, THREADS), lambda it, number: it.ask(number, 1, 0)),
            (lambda: GrvQueue(QueueConfig(10, 5, 100)), lambda it, number: it.window(1)),
            (Audit, lambda it, number: it.push(b"{") or it.text()),
            (lambda: Watch(5), lambda it, number: it.push(b"{") or it.tell()),
        ):
            for _ in range(30):
                made = make()
                found = in_threads(lambda number: made.close() if number % 3 == 0
                                   else call(made, number))
                for it in found:
                    self.assertFalse(isinstance(it, Exception) and "is closed" not in str(it), it)

    def test_opened_meanwhile(self):
        chain = Chain(100, 200, 1)
        in_threads(lambda number: [chain.__init__(100, 200, 1) for _ in range(CALLS)])
        self.assertEqual(chain.ask(0, 1, 0).version, 200)

    def test_dropped_by_another(self):
        made = [Chain(100, 200, 1) for _ in range(THREADS * CALLS)]
        made += [GrvQueue(QueueConfig(10, 5, 100)) for _ in range(THREADS * CALLS)]
        made += [kind() for kind in (Audit, lambda: Watch(5)) for _ in range(THREADS * CALLS)]
        in_threads(lambda number: [made.pop() for _ in range(4 * CALLS)])
        self.assertEqual(made, [])

    def test_values(self):
        calls = [Call(Member.READ, it, 1) for it in range(9, 0, -1)]
        kept, reported = Record(100), Record(200, True, bytes(10), 150)
        ops = [Offer(Request(1)), Window(1000)]
        for call in (
            lambda: answers(100, 200, 1, [Ask(0, it, it) for it in range(1, 9)]),
            lambda: outcomes(QueueConfig(10, 5, 100), ops),
            lambda: kept.after_report(reported),
            lambda: reported.version_for(True),
            lambda: audit(calls),
            lambda: audit_text(calls, all=True),
            lambda: audit_text('{"client":"a","read":1}', history=True),
        ):
            wanted = call()
            for it in in_threads(lambda _: [call() for _ in range(20)]):
                self.assertEqual(it, [wanted] * 20)
        for it in in_threads(lambda _: audit(b"[")):
            self.assertIsInstance(it, LogRefused)

    def test_a_signal_within_a_call(self):
        chain, found = Chain(100, 200, 1), []

        def interrupted(*_):
            try:
                chain.close()
                chain.__init__(100, 200, 1)
            except RuntimeError as error:
                found.append(error)

        before = signal.signal(signal.SIGALRM, interrupted)
        signal.setitimer(signal.ITIMER_REAL, 1e-4, 1e-4)
        try:
            for _ in range(CALLS * 20):
                chain.ask(0, 1, 0)
        finally:
            signal.setitimer(signal.ITIMER_REAL, 0)
            signal.signal(signal.SIGALRM, before)
        chain.close()


if __name__ == "__main__":
    unittest.main()
