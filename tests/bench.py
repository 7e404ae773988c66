"""The arguments of the benchmarks: what each run prints, and what is refused."""
import os
import re

from harness import DONE, REFUSED, ROOT, run

PROGRAM = f"{ROOT}/crates/fdb_bench/out/fdb_bench"

# arguments, and what standard error has to say
REFUSALS = [
    (["window"], "there is no benchmark window"),
    ([""], "there is no benchmark "),
    (["waits", "0"], "the size 0 is not 1 to 4294967295"),
    (["waits", "-1"], 'the size "-1"'),
    (["waits", "4294967296"], 'the size "4294967296"'),
    (["queue", "100001"], "the configuration is out of range"),
    (["reads", "64", "5"], "the threads 5 is not 1 to 4"),
    (["waits", "64", "2"], "the threads 2 is not 1 to 1"),
    (["waits", "64", "1", "1"], "more arguments than"),
]


def timed_fault(words, clock):
    """Returns what is wrong with two runs of a benchmark, or None.

    What it printed is the same in every schedule.
    """
    first, again = (run([PROGRAM, *words.split()]) for _ in range(2))
    printed, said = re.escape(words), first.err.decode()
    if (first.status, again.status) != (DONE, DONE) or first.out != again.out:
        return f"status {first.status} and {again.status}, {first.out!r} and {again.out!r}"
    if not re.fullmatch(rf"{printed} \d+\n", first.out.decode()):
        return f"it printed {first.out!r}"
    if not re.fullmatch(rf"{printed}: \d+ operations, \d+ ns of {clock} time\n", said):
        return f"it said {said!r}"
    return None


def arguments(_program):
    """Each run says what it computed; other arguments are refused, and nothing is printed."""
    if not os.access(PROGRAM, os.X_OK):
        yield "the program", f"{PROGRAM} is not there: rt ci builds it"
        return
    for line in run([PROGRAM, "--list"]).out.decode().splitlines():
        name, threads, *_ = line.split("\t")
        words = f"{name} 64 {threads}"
        clock = "wall" if int(threads) > 1 else "processor"
        yield f"the benchmark {words}", timed_fault(words, clock)
    for given, why in REFUSALS:
        ran = run([PROGRAM, *given])
        is_so = ran.status == REFUSED and not ran.out and why.encode() in ran.err
        yield f"the arguments {given}", None if is_so else f"it ended with {ran}"
