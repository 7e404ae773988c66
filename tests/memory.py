"""Memory and threads refused: each allocation and start in turn, alone and with all after it."""
import os
import re
import shutil
import subprocess
import tempfile
from typing import NamedTuple

from answers import do
from audit_logs import PROGRAM as AUDIT
from audit_logs import example_cases, large_log, learnt_log
from harness import ARGUMENTS_REFUSED, EXAMPLES, NOT_ENDED, OUT_OF_MEMORY, READING_FAILED, ROOT
from harness import TRIES, Ran, done, fault_of, first_output, first_script, read, run, written
from harness import refused as refused_script
from judge import Lawful
from model import expected
from races import commit

SOURCE = f"{ROOT}/tests/refuse.c"
LARGE = [
    [do("ask", at=9 * it) for it in range(500)],
    [do("report", num=it + 1) for it in range(500)],
    [do("grv")] * 500,
]
# Two clients with throttles, tags and tells, of whose calls some are refused.
THROTTLES = [
    {"priority": "default", "tag": tag, "rate": 5, "expires": 5000}
    for tag in ("t", "sixteen-bytes-ab", "t")
]
TWO = [
    [
        do("ask", at=1000),
        do("ask", at=3000),
        do("report", num=2, locked=True, metadata="0102030405060708090A", min_known=5),
        do("tell", to=1),
        do("reask", num=2, at=1),
    ],
    [
        do("grv", 1, tags=["t", "u", "sixteen-bytes-ab", "t"], lock_aware=True, use_min=True),
        do("grv", 1), do("ask", 1, at=5), do("tell", 1, to=0),
    ],
    [
        do("report", num=3), do("report", num=1, min_known=7), do("report", num=1, min_known=101),
        do("reask", num=9, at=1), do("grv", priority="batch", tags=["t"]), do("tell", to=1),
        do("tell", to=1),
    ],
]
# Three clients that share rounds, in which each commits, reads and tells.
CROWD = [
    [
        it
        for who in range(3)
        for it in (*commit(who, num), do("grv", who, tags=["t"]), do("tell", who, to=(who + 1) % 3))
    ]
    for num in (1, 2)
]
# A client that reads once through each of 16 GRV proxies, and once more.
READS = [[do("grv")] * 17]
# The most runs of a sweep, and how many end without the allocation before it is over.
MOST_RUNS, MISSED = 2_000, 3
# The tests that pass whichever single allocation is refused: of each crate those whose names match.
BEARING = {
    crate: r"^refused_memory::" for crate in ("fdb_tests", "fdb_service_tests")
}
# Those of them that pass also where all are refused from any one on.
WITHOUT = r"::without_memory$"
PASSED = done(b"\ntest result: ok\n")
# What a test prints where one request alone was refused memory in its offer and all others had
# their replies. How many such requests there have to be over the sweeps: the queue grows twice.
ALONE = re.compile(rb"request (\d+) alone was refused memory\n")
OFTEN = {"refused_memory::a_proxy_bears_it": 2}
# The library in use, and how it ends where it is refused what it can't do without.
USES, FAILED = f"{ROOT}/crates/fdb_uses/out/fdb_uses", Ran(1, None, None)
# What tests/refuse.c tells where it refuses the start of a thread.
THREAD = b"t"
# The sweep of clients that race for one proxy.
ONE_PROXY = "three clients that race"


class Refused(NamedTuple):
    """A run with something refused: the number of that, what it was, and what was wrong or None."""

    number: int
    what: bytes
    fault: str


def built(folder, source=SOURCE):
    """Compiles what is preloaded, such as what refuses memory, by the compiler of the kit."""
    kit = os.path.dirname(os.path.dirname(os.path.realpath(shutil.which("rt"))))
    made = f"{folder}/preloaded.so"
    words = [f"{kit}/toolchain/bin/clang", "-O2", "-shared", "-fPIC", "-nostdlib", "-o", made]
    subprocess.run([*words, source], check=True, stdin=subprocess.DEVNULL)
    return made


def run_refused(words, preloaded, number, goes_on, given):
    """Runs a program with one thing refused; returns how it ended and what that was, if any."""
    tells, told = os.pipe()
    env = {
        "LD_PRELOAD": preloaded, "REFUSE": str(number), "REFUSE_TELLS": str(told),
        "REFUSE_ON": str(int(goes_on)),
    }
    ran = run(words, given, env=env, pass_fds=[told])
    os.close(told)
    with os.fdopen(tells, "rb") as it:
        return ran, it.read()


def swept(words, preloaded, given, without, fault_of_ran, goes_on, step, needed=(THREAD,)):
    """Refuses allocations and starts of threads, by `step`, until runs end without one.

    A run is to end as `without` where what is `needed` was refused, and else as `fault_of_ran`
    asks, or as `without` where it could not do without, as a sort can without its buffer. Threads
    do not allocate in the same order in each run, so that a run may end before an allocation that
    another one comes to. Where a run does not end in time there are no further ones.
    """
    number, missed = 1, 0
    for _ in range(MOST_RUNS):
        ran, what = run_refused(words, preloaded, number, goes_on, given)
        fault = fault_of_ran(ran)
        yield Refused(
            number, what, fault_of(ran, without) if what in needed or fault and what else fault
        )
        missed = 0 if what else missed + 1
        if missed == MISSED or ran.status == NOT_ENDED:
            return
        number = step(number)
    yield Refused(number, what, f"memory is still asked for after {MOST_RUNS} runs")


def exactly(wanted):
    return lambda ran: fault_of(ran, wanted)


def refused(program):
    """A run that is refused what it needs ends with status 3 and its line, and else as ever."""
    each, further = lambda at: at + 1, lambda at: at + 1 + at // 12
    first, two, large = first_script(), written(TWO, clients=2, throttles=THROTTLES), written(LARGE)
    reads = written(READS)
    each_read = exactly(expected(reads, False))
    crowd = written(CROWD, clients=3, throttles=THROTTLES, room=1)
    by_arguments = ["--history", "--proxies=2", f"{EXAMPLES}/first.json"]
    of_crowd = lambda proxies: (
        ["--proxies", str(proxies), "--history"], crowd, Lawful(crowd, proxies).fault_of, each
    )
    sweeps = [
        ("the first script", [], first, exactly(done(first_output())), each),
        ("a script that is refused", [], first.replace(b'"num":2', b'"num":-2'),
         exactly(refused_script("BadField 0 4")), each),
        ("two clients", ["--proxies", "2", "--history"], two, exactly(expected(two, True)), each),
        (ONE_PROXY, *of_crowd(1)),
        ("three clients that race for two proxies", *of_crowd(2)),
        ("reads through 16 proxies", ["--proxies", "16"], reads, each_read, each),
        ("a large script", ["--history"], large, exactly(expected(large, True)), further),
        ("a file that arguments name", by_arguments, b"", exactly(expected(first, True)), each),
        ("a file that is not there", ["/none.json"], b"", exactly(READING_FAILED), each),
        ("arguments that are refused", ["--proxies", "17"], first, exactly(ARGUMENTS_REFUSED),
         each),
        ("help", ["--help"], b"", exactly(done(run([program, "--help"]).out)), each),
    ]
    with tempfile.TemporaryDirectory(prefix="refuse-") as folder:
        preloaded, most_threads = built(folder), 0
        for name, arguments, given, fault_of_ran, step in sweeps:
            for goes_on in (False, True):
                begun, threads = f"{name}, {'from ' if goes_on else ''}allocation or thread", 0
                for it in swept(
                    [program, *arguments], preloaded, given, OUT_OF_MEMORY, fault_of_ran, goes_on,
                    step,
                ):
                    threads += it.what == THREAD
                    yield f"{begun} {it.number}", it.fault
                most_threads = max(most_threads, threads if name == ONE_PROXY else 0)
    # The one proxy of this sweep is started before anything races, so that the others were threads
    # of clients.
    few = f"{most_threads} threads were refused in a sweep of one proxy"
    yield "starts of clients' threads", None if most_threads > 1 else few


def used(_program):
    """The library in use ends with an error where it is refused what it needs, and else as ever.

    Where a thread is refused to two who draw versions at once, they do so one after the other.
    """
    each, printed = lambda at: at + 1, read(f"{ROOT}/crates/fdb_uses/stdout")
    # The audit of a stale read prints its fault, whichever that is.
    starved = printed.replace(b"fault: Wrong 1 2\n", b"fault: out of memory\n")
    statuses = []

    def ended(ran):
        statuses.append(ran.status)
        return fault_of(ran, done(starved if ran.out == starved else printed))

    with tempfile.TemporaryDirectory(prefix="refuse-") as folder:
        preloaded, threads, failed = built(folder), 0, 0
        for at, goes_on in enumerate((False, True) * TRIES):
            # (once in each way; again where too few threads were met, as their order changes)
            if at > 1 and threads > 1 and failed > 1:
                break
            for it in swept([USES], preloaded, b"", FAILED, ended, goes_on, each, needed=()):
                threads += it.what == THREAD
                failed += it.what == THREAD and statuses[-1] == FAILED.status
                yield f"{'from ' if goes_on else ''}allocation or thread {it.number}", it.fault
    yield "starts of threads", None if threads > 1 else f"{threads} threads were refused"
    # Without a thread for each of its two GRV proxies nobody reads.
    yield "threads of GRV proxies", None if failed > 1 else f"it went on but for {failed}"


def audits():
    """Names audits: arguments, the log, and how the next thing to be refused is chosen."""
    each, further = lambda at: at + 1, lambda at: at + 1 + at // 12
    for name, given, words, _out in example_cases():
        yield f"{name} {' '.join(words)}", words, given, each
    yield "a file", [f"{EXAMPLES}/logs/shared.jsonl", "--history"], b"", each
    yield "a file that is not there", ["/none"], b"", each
    yield "a log that is refused", [], read(f"{EXAMPLES}/logs/shared.jsonl") + b"{}\n", each
    yield "arguments that are refused", ["--margin"], b"", each
    yield "help", ["--help"], b"", each
    yield "many faults", ["--all"], large_log(400)[0], further
    yield "JSON by key", ["--json", "--history", "--key", "client"], large_log(400)[0], further
    yield "totals", ["--summary"], large_log(400)[0], further
    yield "a chain of learns", ["--history"], learnt_log(60), further
    keys, many = read(f"{EXAMPLES}/logs/keys.jsonl"), large_log(400)[0]
    yield "a log that grows", ["--follow", "9", "--key", "key", "--all"], keys + b"{}\n", each
    yield "a larger one", ["--follow", "9", "--json", "--show", "note"], many, further
    yield "a file to keep in that fails", ["--follow", "9", "--keep", "/none/kept"], keys, each


def audited(_program):
    """An audit of logs that is refused memory says so and writes nothing, and else ends as ever.

    So it does where a thread cannot be started, whose work is then done by the one that asked.
    """
    starved = Ran(OUT_OF_MEMORY.status, b"", b"fdb_audit: want of memory\n")
    with tempfile.TemporaryDirectory(prefix="refuse-") as folder:
        preloaded = built(folder)
        for name, words, given, step in audits():
            audit, short = [AUDIT, *words], starved
            if "--follow" in words:
                # Of a file: what a pipe gives at once differs, and with it how late a call is at
                # least. What a watch told before it is refused is told.
                log = f"{folder}/log.jsonl"
                with open(log, "wb") as file:
                    file.write(given)
                audit, given, short = [*audit, log], b"", starved._replace(out=None, err=None)
            ended = exactly(run(audit, given))
            for goes_on in (False, True):
                for it in swept(audit, preloaded, given, short, ended, goes_on, step, ()):
                    yield f"{name}, {'from ' if goes_on else ''}allocation {it.number}", it.fault


def bearing_tests(tests, pattern):
    """Names the tests of a built test program whose names match."""
    listed = run([tests, "--list"]).out.decode().splitlines()
    names = [
        name for name, colon, what in (line.rpartition(": ") for line in listed) if what == "test"
    ]
    return [name for name in names if re.search(pattern, name)]


def borne(_program):
    """Each of the tests that rt left built passes with and without refused allocations."""
    each = lambda at: at + 1
    with tempfile.TemporaryDirectory(prefix="refuse-") as folder:
        preloaded = built(folder)
        for crate, pattern in BEARING.items():
            tests = f"{ROOT}/crates/{crate}/out/{crate}_tests"
            if not os.access(tests, os.X_OK):
                yield crate, f"there is no {tests}: run rt ci, or rt test in the crate's folder"
                continue
            names = bearing_tests(tests, pattern)
            yield f"{crate}'s tests", None if names else f"none matches {pattern!r}"
            for name in names:
                alone = set()
                for goes_on in sweeps_of(name, alone):
                    what = f"{name}, {'from ' if goes_on else ''}allocation or thread"
                    words = ([tests, name], preloaded, b"", PASSED, passed(alone), goes_on, each)
                    for it in swept(*words):
                        yield f"{what} {it.number}", it.fault
                fault = f"only of {sorted(alone)}" if len(alone) < OFTEN.get(name, 0) else None
                yield f"{name}, requests that alone are refused memory", fault


def sweeps_of(name, alone):
    """Whether all is refused from one on, in each sweep of a test.

    Threads do not allocate in the same order in each run, so that one sweep may miss requests.
    """
    yield False
    if re.search(WITHOUT, name):
        yield True
    for _ in range(TRIES):
        if len(alone) < OFTEN.get(name, 0):
            yield False


def passed(alone):
    """Asks that a test passed, and notes which request it says was refused memory alone."""

    def fault_of_ran(ran):
        alone.update(map(int, ALONE.findall(ran.out)))
        return fault_of(ran._replace(out=ALONE.sub(b"", ran.out)), PASSED)

    return fault_of_ran
