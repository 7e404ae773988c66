"""What a watch costs: what is told, settled and kept takes processor time in proportion to that.

Each run is measured beside one of the same lines that has less to do, in processor time.
"""
import os
import tempfile
import time

from audit_logs import FAULTY, OK, PROGRAM
from follow import Growing
from harness import SECONDS, TRIES, processor_time, spent
from shapes import repeated

# The keys that have a stale read each, and the clients and how many of them read what is stale.
KEYS, CLIENTS, STALE = 10_000, 100_000, 200
# The lines of a log that is open to its end, and of one whose lines are kept.
OPEN, KEPT = 300_000, 100_000
# The lines that stand in the window of a log that grows, and how many come then, and how soon; and
# how long a watch does nothing that has gone over what came.
WINDOW, COMING, PAUSE, REST = 50_000, 400, 0.01, 0.5
# How many times what is measured beside a run may take, and seconds that are never too many.
MOST, FEW_SECONDS = 4, 2
# Behind this all is open.
FAR = 2**40


def line(client, call, version, began, more=""):
    return (f'{{"client":"{client}","{call}":{version},"began":{began},"ended":{began + 5}{more}}}'
            "\n")


def of_keys(is_stale, count=KEYS):
    """A commit of each key, and behind it a read of what it drew, or of what is stale."""
    for at in range(count):
        more = f',"key":"k{at}"'
        yield line(f"a{at}", "commit", at + 5, 20 * at, more)
        yield line(f"b{at}", "read", 1 if is_stale else at + 5, 20 * at + 10, more)


def of_clients(is_stale, count=CLIENTS):
    """Commits and reads in turn, each of a client of its own, of which some are stale."""
    for at in range(count):
        is_old = is_stale and at % (count // STALE) == count // STALE - 1
        version = at // 2 + 1 - is_old
        yield line(f"c{at}", "read" if at % 2 else "commit", version, 10 * at)


def of_own_keys(count=KEPT):
    """Commits, each of a key of its own."""
    return (line(f"a{at % 64}", "commit", at + 5, 10 * at, f',"key":"k{at}"')
            for at in range(count))


def written(folder, lines):
    """A file that has these lines."""
    file = f"{folder}/log"
    with open(file, "w", encoding="ascii") as log:
        log.writelines(lines)
    return file


def took(words, most=0, kept=None):
    """How a run ends, and the processor time that it takes, as `processor_time` has it.

    Nothing is kept in a file of that name as a run begins.
    """
    def begun():
        if kept and os.path.exists(kept):
            os.remove(kept)
        return spent([PROGRAM, *words], 100, 2**32)

    it, seconds = processor_time(begun, most)
    return it.status, seconds


def beside(wanted, usual, words, status, kept=None):
    """What is wrong with a run beside one that takes so long, or None."""
    most = max(MOST * usual, FEW_SECONDS)
    ended, seconds = took(words, most, kept)
    is_so = ended == status and seconds <= most
    return None if is_so else f"{wanted}: status {ended}, {seconds:.2f} s beside {usual:.2f} s"


def of_faults(_program):
    """Faults that are told take what these lines take without faults, and a few times that."""
    words = ["--follow", "1000", "--all"]
    for name, made, more in (("of keys", of_keys, ["--key", "key"]),
                             ("of many clients", of_clients, [])):
        with tempfile.TemporaryDirectory() as folder:
            _, usual = took([*words, *more, written(folder, made(False))])
            file = written(folder, made(True))
            yield name, beside(name, usual, [*words, *more, file], FAULTY)


def of_settling(_program):
    """Where no line is due, a watch of a whole log takes what an audit of it takes."""
    with tempfile.TemporaryDirectory() as folder:
        file = written(folder, repeated(OPEN))
        _, usual = took([file])
        yield "a log that is open", beside("open", usual, ["--follow", str(FAR), file], OK)


def of_keeping(_program):
    """Where its lines are kept, a watch takes a few times what it takes where they are not."""
    with tempfile.TemporaryDirectory() as folder:
        words = ["--follow", "1000", "--key", "key", written(folder, of_own_keys())]
        _, usual = took(words)
        kept = f"{folder}/kept"
        words += ["--keep", kept]
        yield "a key for each line", beside("kept", usual, words, OK, kept)


def processor_of(process):
    """The seconds of processor time that a process has taken."""
    with open(f"/proc/{process.pid}/stat", encoding="ascii") as stat:
        user, system = stat.read().rpartition(")")[2].split()[11:13]
    return (int(user) + int(system)) / os.sysconf("SC_CLK_TCK")


def rested(process):
    """The processor time of a process that takes none any more: it is waited for, up to a bound."""
    late, used = time.monotonic() + SECONDS, processor_of(process)
    while time.monotonic() < late:
        time.sleep(REST)
        if used and processor_of(process) == used:
            break
        used = processor_of(process)
    return used


def used_growing(words, window, last):
    """The processor time that a watch takes while its log grows, and how long that lasts."""
    with Growing(*words) as growing:
        growing.started.stdin.write("".join(window).encode())
        # (what has come is gone over once the pipe is empty)
        before, begun = rested(growing.started), time.monotonic()
        for at in range(COMING):
            text = line("d", "commit", 10**12 + at, last + 10 * at)
            growing.started.stdin.write(text.encode())
            time.sleep(PAUSE)
        used, seconds = processor_of(growing.started) - before, time.monotonic() - begun
        growing.started.stdin.close()
        growing.end()
    return used, seconds


def of_growing(_program):
    """A log that grows slowly takes little of a processor, however many lines are in the window."""
    window = list(repeated(WINDOW))
    last = int(window[-1].rpartition('"ended":')[2].rstrip("}\n"))
    for name, behind in (("that is open", last // 2), ("that is settled", 1_000)):
        # (on a busy machine the same takes more)
        for _ in range(TRIES):
            used, seconds = used_growing(["--follow", str(behind)], window, last)
            if used <= seconds / 4:
                break
        yield f"a window {name}", None if used <= seconds / 4 else f"{used} of {seconds} s"
