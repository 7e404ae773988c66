"""What feeds a watch: examples/watch/feed, over a log that is rotated, while it is killed."""
import contextlib
import gzip
import importlib.machinery
import importlib.util
import json
import os
import random
import shutil
import signal
import subprocess
import sys
import tempfile
import time

from audit_logs import FAULTY, PROGRAM
from exporter import LIBRARY, TOOL as EXPORTER, values_of
from harness import DONE, EXAMPLES, NO_STREAM, OTHER_ARGUMENTS, SECONDS, read, run
from kept_logs import faults_of, lines_kept, watched_of
from shapes import text_of_lines, timed

FEED = f"{EXAMPLES}/watch/feed"
# How many random runs there are, how many things happen in each, and the longest pause in seconds.
RUNS, ACTS, PAUSE = 16, 12, 0.5
# How far lines may begin behind the newest end; of so many lines one is stale.
BEHIND, STALE = 100, 4
# What stands for a watch: it keeps the last text of a member, and what it was given.
STAND_IN = """
import json, sys
kept, member = (sys.argv[sys.argv.index(it) + 1] for it in ("--keep", "--position"))
with open(sys.argv[1], "a") as file:
    for line in sys.stdin:
        file.write(line)
        file.flush()
with open(kept, "w") as file:
    last = {"kept_line": 1, "kept_lines": 7, "kept_position": json.loads(line)[member]}
    file.write(json.dumps(last) + "\\n")
"""


def line_at(at):
    """A line of a log: commits of a, and reads of b, which are stale."""
    if at % STALE:
        return timed("commit", at, 20 * at, 20 * at + 9, "a")
    return timed("read", max(at - 3, 0), 20 * at, 20 * at + 9, "b")


class Fed:
    """A log in a folder that is written, rotated, and fed to a watch."""

    def __init__(self, folder):
        self.log, self.kept, self.said = (f"{folder}/{it}" for it in ("calls", "kept", "said"))
        self.lines, self.rotated, self.started, self.errors = [], 0, None, ""

    def start(self, *words, watch=(PROGRAM, "--follow", str(BEHIND))):
        words = [self.log, "--keep", self.kept, "--said", self.said, *words, "--", *watch]
        self.started = subprocess.Popen([sys.executable, "-B", FEED, *words],
                                        stderr=subprocess.PIPE, start_new_session=True)

    def write(self, *lines):
        with open(self.log, "a", encoding="ascii") as file:
            file.write(text_of_lines(lines))
        self.lines += lines

    def write_more(self, count):
        self.write(*map(line_at, range(len(self.lines), len(self.lines) + count)))

    def rotate(self, is_copied=False, is_dated=False, is_packed=False):
        """As logrotate does: by another name or a copy, by a number or a date, packed later or not
        at all."""
        self.rotated += 1
        to = f"{self.log}-{20260100 + self.rotated}" if is_dated else f"{self.log}.1"
        for number in range(self.rotated, 0, -1) if not is_dated else ():
            for packed in ("", ".gz"):
                with contextlib.suppress(FileNotFoundError):
                    os.rename(f"{self.log}.{number}{packed}", f"{self.log}.{number + 1}{packed}")
        if is_packed and os.path.exists(f"{self.log}.2"):
            with gzip.open(f"{self.log}.2.gz", "wb") as file:
                file.write(read(f"{self.log}.2"))
            os.remove(f"{self.log}.2")
        if is_copied:
            shutil.copyfile(self.log, to)
            os.truncate(self.log, 0)
        else:
            os.rename(self.log, to)

    def until(self, holds):
        """Waits until this holds, up to a bound; gives whether it does."""
        late = time.monotonic() + SECONDS
        while not holds() and time.monotonic() < late:
            time.sleep(0.02)
        return holds()

    def until_begun(self):
        """Waits until it has noted so many files as there are."""
        return self.until(lambda: os.path.exists(f"{self.kept}.files"))

    def until_told(self):
        """Waits until something is told behind these lines, and not only an end of what was cut."""
        before = size_of(self.said) + 1
        self.write_more(2 * STALE + BEHIND // 10)
        return self.until(lambda: size_of(self.said) > before)

    def watches(self):
        """The processes that it has started."""
        return [int(it) for it in read(
            f"/proc/{self.started.pid}/task/{self.started.pid}/children").split()]

    def kill(self, which):
        """Kills what feeds, the watch, or both; then neither is there any more."""
        watches, feed = self.until(self.watches), [self.started.pid]
        for it in {"feed": feed, "watch": watches, "both": feed + watches}[which]:
            with contextlib.suppress(ProcessLookupError):
                os.kill(it, signal.SIGKILL)
        self.errors += self.started.communicate(timeout=SECONDS)[1].decode()
        self.until(lambda: not any(map(is_running, watches)))
        self.started = None

    def ended(self):
        """What it said, and its status, once it has ended by itself."""
        said, status = self.started.communicate(timeout=SECONDS)[1], self.started.returncode
        self.started = None
        return said, status

    def stop(self, to=os.kill, sent=signal.SIGTERM):
        """Ends it, as systemd does if nothing else is said, and gives its status."""
        to(self.started.pid, sent)
        said, status = self.ended()
        self.errors += said.decode()
        return status

    def close(self):
        """Writes lines behind which all others are told, of two clients since none is believed
        alone, and stops it once they were read."""
        versions = [value for it in self.lines for kind, value in it.items()
                    if kind in ("commit", "read")]
        end = self.lines[-1]["ended"]
        self.write(*(timed("read", max(versions), end + 1, end + BEHIND + 2, it) for it in "yz"))
        late, status, pause = time.monotonic() + SECONDS, None, PAUSE
        while lines_kept(self.kept) < len(self.lines) and time.monotonic() < late:
            if not self.started:
                self.start()
            # (a busy machine may not have begun so soon)
            time.sleep(pause)
            status, pause = self.stop(), 2 * pause
        return status

    def told(self):
        """The faults that were told; a line that was cut tells none."""
        whole = [it for it in read(self.said).split(b"\n") if is_whole(it)]
        return faults_of(b"".join(it + b"\n" for it in whole))

    def fault(self, is_killed=False):
        """How what was told differs from what an audit of all lines tells, or None; where it was
        killed a fault may be told again."""
        told, wanted = self.told(), watched_of(["--json"], text_of_lines(self.lines).encode())
        if is_killed:
            counts = counted_of(self.said)
            if counts is not None and counts != len(wanted):
                return f"{counts} are counted in place of {len(wanted)}"
            told = {*told}
        is_so = wanted and sorted(told) == sorted(wanted) and "feed: " not in self.errors
        return None if is_so else f"{told} in place of {wanted}; it said {self.errors[-300:]!r}"

    def __enter__(self):
        return self

    def __exit__(self, *_):
        if self.started:
            self.kill("both")


@contextlib.contextmanager
def fed():
    with tempfile.TemporaryDirectory() as folder, Fed(folder) as it:
        yield it


def size_of(file):
    return os.path.getsize(file) if os.path.exists(file) else 0


def is_running(process):
    """Whether a process is there, and has not ended."""
    with contextlib.suppress(OSError):
        return b") Z " not in read(f"/proc/{process}/stat")
    return False


def is_whole(line):
    with contextlib.suppress(ValueError):
        return isinstance(json.loads(line), dict)
    return False


def counted_of(said):
    """How many stale reads the exporter counts in what was told; None where it cannot run."""
    if not os.path.exists(LIBRARY):
        return None
    with open(said, "rb") as given:
        ran = run([EXPORTER, "--textfile", f"{said}.prom"], stdin=given)
    found = values_of(read(f"{said}.prom").decode())['fdb_audit_faults_total{kind="Order"}']
    return found if ran.status == DONE else f"{ran}"


# ---- runs


def killed(_program):
    """Killed or stopped at random moments, and the log rotated in between, it loses no line: each
    fault is told, and counted once; and where it was not killed it is told once."""
    for number in range(RUNS):
        dice, is_killed = random.Random(f"fed {number}"), False
        how = {"is_dated": dice.random() < 0.3, "is_packed": dice.random() < 0.4}
        with fed() as it:
            it.start()
            it.write_more(dice.randint(1, 30))
            it.until_begun()
            for _ in range(ACTS):
                act = dice.choice(("write", "write", "write", "pause", "rotate", "kill", "stop"))
                if act == "rotate" and size_of(it.log):
                    it.rotate(is_copied=dice.random() < 0.3, **how)
                elif act == "pause":
                    time.sleep(dice.random() * PAUSE)
                elif act in ("kill", "stop") and not it.started:
                    it.start()
                elif act == "kill" and number % 4:
                    it.kill(dice.choice(("feed", "watch", "both")))
                    is_killed = True
                elif act in ("kill", "stop"):
                    it.stop()
                if act == "write":
                    it.write_more(dice.randint(1, 40))
            it.close()
            yield f"run {number}", it.fault(is_killed)


def between_rotations(_program):
    """Killed between two rotations, it goes on with the file that is the older one then; stopped by
    a signal, nothing is told twice, and it has the watch's status."""
    for which in ("feed", "watch", "both"):
        for is_copied in (False, True):
            with fed() as it:
                it.start()
                it.until_told()
                it.rotate(is_copied)
                it.until_told()
                it.kill(which)
                it.write_more(9)
                it.rotate(is_copied)
                it.write_more(9)
                it.rotate(is_copied)
                it.start()
                is_going = it.until_told()
                it.close()
                yield f"{which}, {'copied' if is_copied else 'renamed'}", it.fault(True) or (
                    None if is_going else "it did not go on")
    # (at a terminal a signal goes to the group)
    for to, sent in ((os.kill, signal.SIGTERM), (os.killpg, signal.SIGINT)):
        with fed() as it:
            it.start()
            it.until_told()
            status = it.stop(to, sent)
            is_so = status == FAULTY and b"kept_lines" in read(it.kept)
            yield f"{sent.name}", None if is_so else f"status {status}"
            it.start()
            it.rotate()
            it.until_told()
            it.close()
            yield f"{sent.name}, and on", it.fault()


def fault_of_cut():
    """What is wrong with what is read of a log that is cut behind a copy in between, or None."""
    loader = importlib.machinery.SourceFileLoader("feed", FEED)
    feed = importlib.util.module_from_spec(importlib.util.spec_from_loader("feed", loader))
    loader.exec_module(feed)
    with fed() as it:
        it.write_more(15)
        reads = feed.Feed(it.log, feed.Notes(f"{it.kept}.files"), (0, None), None)
        reads.find()
        texts = reads.texts()
        found = next(texts)
        it.write_more(30)
        it.rotate(is_copied=True)
        it.write_more(60)
        for more in (texts, reads.texts(), reads.texts()):
            found += b"".join(more)
        wanted = text_of_lines(it.lines).encode()
        return None if found == wanted else f"{found} in place of {wanted}"


def files(_program):
    """What it does with files that are not as they ought to be."""
    yield "a log that is cut while it is read", fault_of_cut()
    with fed() as it:
        it.start()
        time.sleep(PAUSE)
        it.until_told()
        # (a last line without its end is one all the same, where the log goes on elsewhere)
        it.write_more(1)
        it.lines.append(line_at(len(it.lines)))
        with open(it.log, "a", encoding="ascii") as file:
            file.write(text_of_lines(it.lines[-1:])[:-1])
        it.rotate()
        it.until_told()
        it.close()
        yield "a log that comes later, and a last line without its end", it.fault()
    with fed() as it:
        it.start()
        it.until_told()
        it.stop()
        lost = lines_kept(it.kept)
        it.rotate()
        os.remove(f"{it.log}.1")
        it.start()
        it.write_more(STALE)
        is_told = it.until(lambda: size_of(f"{it.kept}.files") > 100)
        it.stop()
        is_told = f"lines may be missing in front of line {lost + 1}, " in it.errors
        yield "a file that is gone", None if is_told else it.errors
        with open(it.said, "ab") as said:
            said.write(b'{"fault":"Ord')
        it.start()
        it.until_told()
        it.stop()
        is_so = b'{"fault":"Ord\n{' in read(it.said)
        yield "what was told is cut", None if is_so else f"{read(it.said)[-300:]}"
        it.start()
        it.until_told()
        with Fed(os.path.dirname(it.log)) as other:
            other.start()
            said = other.ended()
        is_so = said == (f"feed: another watch writes to {it.said}\n".encode(), NO_STREAM)
        yield "another watch", None if is_so else f"{said}"
        it.stop()
        for file in (it.kept, f"{it.kept}.files"):
            with open(file, "w", encoding="ascii") as spoilt:
                spoilt.write("nil\n")
            it.start()
            said = it.ended()
            is_so = said[0].startswith(f"feed: {file} ".encode()) and said[1] == NO_STREAM
            yield f"{os.path.basename(file)} is none", None if is_so else f"{said}"
            os.remove(file)


def positions(_program):
    """With --position it goes on behind the line whose text was kept, wherever that is now."""
    with fed() as it:
        given = f"{it.log}-given"
        watch = (sys.executable, "-c", STAND_IN, given)
        rows = [json.dumps({"n": f"at {number}", "read": 1}) + "\n" for number in range(40)]
        for at, to in ((0, 10), (10, 11), (11, 30), (30, 40)):
            with open(it.log, "a", encoding="ascii") as file:
                file.writelines(rows[at:to])
            it.start("--position", "n", watch=watch)
            it.until(lambda: size_of(given) >= sum(map(len, rows[:to])))
            it.stop()
            if at != 10:
                it.rotate()
            found = read(given).decode()
            yield f"up to {to}", None if found == "".join(rows[:to]) else f"{found!r}"


def ended(_program):
    """It ends with the watch, and by its status; what it cannot do is told in a sentence."""
    for watch, status in ((("true",), 0), (("sh", "-c", "exit 3"), 3),
                          (("sh", "-c", "kill -9 $$"), 137)):
        with fed() as it:
            it.write_more(9)
            it.start(watch=watch)
            said = it.ended()
            yield f"{watch}", None if said == (b"", status) else f"{said}"
    with fed() as it:
        it.start(watch=["/none/fdb_audit"])
        said = it.ended()
        is_so = said == (b"feed: /none/fdb_audit: No such file or directory\n", NO_STREAM)
        yield "no watch", None if is_so else f"{said}"
    ran = run([FEED, "--help"])
    said = (b"--keep KEPT", b"--said SAID", b"--position MEMBER", b"LOG-20260131")
    is_so = ran.status == DONE and all(it in ran.out for it in said)
    yield "the help", None if is_so else f"{ran}"
    for words in ([], ["log"], ["log", "--keep", "kept", "--said", "said"], ["--none"]):
        ran = run([FEED, *words])
        is_so = ran.status == OTHER_ARGUMENTS and ran.err and not ran.out
        yield f"{words}", None if is_so else f"{ran}"
