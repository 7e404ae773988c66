"""The exporter in use: many faults, what ends it, its file, and a real Prometheus."""
import contextlib
import hashlib
import os
import re
import socket
import subprocess
import sys
import tempfile
import threading
import time
import urllib.request

from exporter import (
    BY_NOTE, COUNTED, HEARD, NONE_BY_NOTE, TOOL, Exporter, asked, differing, fault, faults_of,
    is_here, text_of, values_of, watched,
)
from harness import DONE, EXAMPLES, NO_STREAM, ROOT, SECONDS, TRIES, read, run

sys.path.insert(0, EXAMPLES)

from eight_clients import free_ports

PROMETHEUS, PROMTOOL = "/usr/bin/prometheus", "/usr/bin/promtool"
# How many faults are told at once, in pieces of so many; how much memory may grow meanwhile, in
# KiB, behind the first so many; how often at least it is asked; and as many faults are known again.
MANY, PIECE, GROWTH, FILLED, ASKED = 1_000_000, 2_000, 8_192, 50_000, 5
KNOWN = 10_000
# How many millions of bytes a line has that is too long, and the most memory with it, in KiB.
LONG, MOST_MEMORY = 150, 150_000


# ---- many faults


def memory_of(process):
    """The most memory that a process has had, in KiB."""
    status = read(f"/proc/{process.pid}/status").decode()
    return int(re.search(r"VmHWM:\s+(\d+) kB", status)[1])


class Burst:
    """What of a burst of faults was given and passed on, as sums, and what was asked meanwhile."""

    def __init__(self):
        self.sums, self.scrapes, self.faults = [hashlib.blake2b(), hashlib.blake2b()], [], []
        self.is_over, (self.reader, self.writer) = threading.Event(), os.pipe()

    @contextlib.contextmanager
    def through(self, exporter):
        """While faults go through it, it is asked again and again, and what comes out is read."""
        os.close(self.writer)
        hears, asks = (threading.Thread(target=it, args=[exporter]) for it in (self.hear, self.ask))
        hears.start()
        asks.start()
        try:
            yield
        finally:
            # (who asks one that ends may get no answer)
            self.is_over.set()
            asks.join(SECONDS)
            self.ended = exporter.end()
            hears.join(SECONDS)

    def give(self, exporter, text):
        self.sums[0].update(text)
        exporter.give(text)

    def hear(self, _exporter):
        with open(self.reader, "rb", 0) as file:
            while piece := file.read(1 << 16):
                self.sums[1].update(piece)

    def ask(self, exporter):
        while not self.is_over.wait(0.2):
            begun = time.monotonic()
            try:
                self.scrapes.append(sum(it for name, it in asked(exporter.address).items()
                                        if name.startswith("fdb_audit_faults_total")))
            except OSError as why:
                self.faults.append(f"{why} after {time.monotonic() - begun} s")


def form_of_fault():
    """A fault as a form into which the number of its line is put, wherever that stands."""
    one = text_of(fault(987_654_321, note="text 987654321"))
    form = one.replace(b"%", b"%%").replace(b"987654321", b"%(line)d")
    return form, None if form % {b"line": 987_654_321} == one else f"{form}"


def many(_program):
    """A million faults, each of a text of its own: memory is flat, and the metrics are served."""
    if not is_here():
        yield "without prometheus_client", None
        return
    form, wrong = form_of_fault()
    yield "a fault", wrong
    burst, told_again = Burst(), (fault(MANY), fault(MANY - KNOWN + 1), fault(1, note="text 1"))
    with Exporter("--label", "note", out=burst.writer) as exporter, burst.through(exporter):
        for at in range(0, MANY, PIECE):
            lines = range(at + 1, at + PIECE + 1)
            burst.give(exporter, b"".join(form % {b"line": it} for it in lines))
            if at == FILLED:
                exporter.until(lambda it: it.get(BY_NOTE("Order", "other"), 0) >= FILLED - KNOWN)
                before = memory_of(exporter.started)
        burst.give(exporter, text_of(*told_again))
        found = exporter.until(lambda it: it["fdb_audit_told_again_total"] == 2)
        grown = memory_of(exporter.started) - before
    # (of those that are told again one was the first of all, which is not known any more)
    wanted = {**NONE_BY_NOTE, **faults_of("Order", None, 5), "fdb_audit_told_again_total": 2,
              BY_NOTE("Order", "other"): MANY - 100, BY_NOTE("Order", "text 1"): 2,
              **{BY_NOTE("Order", f"text {it}"): 1 for it in range(2, 101)}}
    dropped = {it: None for it, value in wanted.items() if value is None}
    yield "what is counted", differing({**dropped, **found}, wanted)
    is_so = len({it.digest() for it in burst.sums}) == 1
    yield "what is passed on", None if is_so else "it is not what came"
    yield "memory", None if grown <= GROWTH else f"it grew by {grown} KiB"
    scrapes = burst.scrapes
    is_so = len(scrapes) >= ASKED and scrapes == sorted(scrapes) and not burst.faults
    yield "meanwhile", None if is_so else f"{scrapes[:5]} .. {scrapes[-5:]}, {burst.faults[:5]}"
    yield "the end", None if burst.ended == (DONE, "") else f"{burst.ended}"


def too_long(_program):
    """A line that is too long is not read, and takes no more memory than the longest that is."""
    if not is_here():
        yield "without prometheus_client", None
        return
    with Exporter() as exporter:
        for piece in (text_of(fault(1)), b'{"fault":"Order","at":{"line":2},"note":"',
                      *[b"n" * 1_000_000] * LONG, b'"}\n', text_of(fault(3))):
            exporter.give(piece)
        found = exporter.until(lambda it: it['fdb_audit_faults_total{kind="Order"}'] == 2)
        wanted = {**faults_of("Order", 2, 5), "fdb_audit_not_said_total": 1}
        yield "what is counted", differing(found, wanted)
        memory = memory_of(exporter.started)
        yield "memory", None if memory <= MOST_MEMORY else f"{memory} KiB"


# ---- what ends it, and what does not


def is_served(address):
    with contextlib.suppress(OSError):
        asked(address)
        return True
    return False


def ends(_program):
    """It ends with its reader, and what it cannot do is told in a sentence."""
    if not is_here():
        yield "without prometheus_client", None
        return
    reader, writer = os.pipe()
    os.close(reader)
    with Exporter(out=writer) as exporter:
        os.close(writer)
        exporter.give(text_of(fault(9)))
        said = exporter.started.stderr.read().decode(), exporter.started.wait(SECONDS)
        wanted = "exporter: writing failed: Broken pipe\n", NO_STREAM
        yield "nobody reads it", None if said == wanted else f"{said}"
    with open("/dev/full", "wb") as full, Exporter(out=full) as exporter:
        exporter.give(text_of(fault(9)))
        said = exporter.started.stderr.read().decode(), exporter.started.wait(SECONDS)
        wanted = "exporter: writing failed: No space left on device\n", NO_STREAM
        yield "a full disk", None if said == wanted else f"{said}"
    with socket.create_server(("127.0.0.1", 0)) as taken:
        port = taken.getsockname()[1]
        for name, words, why in (
            ("a port that is taken", ["--port", str(port)],
             f"listening at 127.0.0.1, port {port}, failed: Address already in use"),
            ("no port", ["--port", "70000"], "listening at 127.0.0.1, port 70000, failed: "),
            ("an address of another machine", ["--port", "0", "--address", "192.0.2.1"],
             "listening at 192.0.2.1, port 0, failed: Cannot assign requested address"),
            ("a file in no folder", ["--textfile", f"{ROOT}/none/x.prom"],
             f"writing {ROOT}/none/x.prom failed: No such file or directory"),
        ):
            ran = run([TOOL, *words], text_of(fault(9)))
            is_so = ran.status == NO_STREAM and ran.err.startswith(f"exporter: {why}".encode())
            is_so = is_so and not ran.out and ran.err.count(b"\n") == 1
            yield name, None if is_so else f"{ran}"
    for closed, doing in (("<&-", b"reading"), (">&-", b"writing")):
        ran = run(["sh", "-c", f"exec '{TOOL}' --port 0 {closed}"])
        is_so = ran == (NO_STREAM, b"", b"exporter: %s failed: Bad file descriptor\n" % doing)
        yield f"{closed}", None if is_so else f"{ran}"


def askers(_program):
    """It neither waits for nor ends with who asks and says nothing, or goes away."""
    if not is_here():
        yield "without prometheus_client", None
        return
    with Exporter() as exporter:
        address = exporter.address.split("/")[2].split(":")
        # One asks and says nothing; one asks and goes away.
        silent = socket.create_connection((address[0], int(address[1])))
        with socket.create_connection((address[0], int(address[1]))) as gone:
            gone.send(b"GET /metrics HTTP/1.1\r\n")
        exporter.give(text_of(fault(9)))
        found = exporter.until(lambda it: it['fdb_audit_faults_total{kind="Order"}'] == 1)
        yield "others that ask", differing(found, faults_of("Order", 1, 5))
        ended = exporter.end()
        silent.close()
        yield "the end, and one still asks", None if ended == (DONE, "") else f"{ended}"
    yield "the port", "it is open" if is_served(exporter.address) else None


def textfile(_program):
    """A file has the metrics, whole at each moment, soon after what came and at the end."""
    if not is_here():
        yield "without prometheus_client", None
        return
    with tempfile.TemporaryDirectory() as folder:
        file = f"{folder}/watch.prom"
        words = [TOOL, "--textfile", file]
        with subprocess.Popen(words, bufsize=0, stdin=subprocess.PIPE, stdout=subprocess.DEVNULL,
                              stderr=subprocess.PIPE) as started:
            yield "at the beginning", differing(written(file, lambda it: True), {})
            seen = []
            for at in range(1, 301):
                started.stdin.write(text_of(fault(at)))
                with contextlib.suppress(FileNotFoundError):
                    seen.append(values_of(read(file).decode()))
            found = written(file, lambda it: it['fdb_audit_faults_total{kind="Order"}'] == 300)
            yield "soon", differing(found, faults_of("Order", 300, 5))
            names = {frozenset(it) for it in seen}
            yield "whole", None if names == {frozenset(found)} else f"{names}"
            started.stdin.write(text_of(fault(301), watched()))
            started.stdin.close()
            ended = started.wait(SECONDS), started.stderr.read()
            yield "the end", None if ended == (DONE, b"") else f"{ended}"
        changed = {**faults_of("Order", 301, 5), **COUNTED}
        yield "at the end", differing(written(file, lambda it: True), changed)
        left = os.listdir(folder)
        yield "what is left", None if left == ["watch.prom"] else f"{left}"


def textfile_and_port(_program):
    """Both a file and a port, and a folder that goes and comes again."""
    if not is_here():
        yield "without prometheus_client", None
        return
    with tempfile.TemporaryDirectory() as folder:
        file = f"{folder}/watch.prom"
        with Exporter("--textfile", file) as exporter:
            exporter.give(text_of(fault(9)))
            exporter.until(lambda it: it['fdb_audit_faults_total{kind="Order"}'] == 1)
            exporter.end()
        yield "with a port too", differing(written(file, lambda it: True), faults_of("Order", 1, 5))
        os.mkdir(f"{folder}/of")
        file = f"{folder}/of/watch.prom"
        with Exporter("--textfile", file) as exporter:
            os.rename(f"{folder}/of", f"{folder}/gone")
            exporter.give(text_of(fault(9)))
            said = exporter.started.stderr.readline().decode()
            why = "No such file or directory; it is tried again"
            is_so = said == f"exporter: writing {file} failed: {why}\n"
            yield "a folder that goes", None if is_so else said
            os.mkdir(f"{folder}/of")
            exporter.give(text_of(fault(10)))
            is_two = lambda it: it['fdb_audit_faults_total{kind="Order"}'] == 2
            yield "and comes", differing(written(file, is_two), faults_of("Order", 2, 5))
            ended = exporter.end()
            yield "the end, with a port too", None if ended == (DONE, "") else f"{ended}"


def written(file, holds):
    """The metrics in a file once this holds of them, or what they are after a time."""
    late, found = time.monotonic() + SECONDS, None
    while (found is None or not holds(found)) and time.monotonic() < late:
        time.sleep(0.02)
        with contextlib.suppress(FileNotFoundError):
            found = values_of(read(file).decode())
    return found


# ---- a real Prometheus


CONFIG = """global: {{scrape_interval: 1s, scrape_timeout: 1s}}
scrape_configs: [{{job_name: fdb_audit, static_configs: [{{targets: ['{}']}}]}}]
"""


@contextlib.contextmanager
def prometheus(target):
    """A Prometheus that asks this target, in a folder of its own: its address."""
    with tempfile.TemporaryDirectory() as folder:
        with open(f"{folder}/prometheus.yml", "w", encoding="ascii") as file:
            file.write(CONFIG.format(target))
        for _ in range(TRIES):
            [port] = free_ports(1)
            words = ["setpriv", "--pdeathsig", "KILL", PROMETHEUS, f"--config.file={file.name}",
                     f"--storage.tsdb.path={folder}/data", "--log.level=error",
                     f"--web.listen-address=127.0.0.1:{port}"]
            with subprocess.Popen(words, cwd=folder, stderr=subprocess.PIPE) as started:
                try:
                    # (another may have taken the port)
                    if is_ready(started, f"http://127.0.0.1:{port}"):
                        yield f"http://127.0.0.1:{port}"
                        return
                finally:
                    started.kill()
        raise ValueError("Prometheus did not begin")


def is_ready(started, address):
    late = time.monotonic() + SECONDS
    while started.poll() is None and time.monotonic() < late:
        with contextlib.suppress(OSError), urllib.request.urlopen(f"{address}/-/ready", timeout=5):
            return True
        time.sleep(0.05)
    return False


def queried(address, query, wanted):
    """How what `promtool query instant` says of a query differs from these lines after a time, or
    None."""
    late, said, wanted = time.monotonic() + SECONDS, None, sorted(wanted)
    while said != wanted and time.monotonic() < late:
        out = run([PROMTOOL, "query", "instant", address, query]).out.decode()
        said = sorted(re.sub(r" => (\S+) @\[.*", r" \1", it) for it in out.splitlines())
        time.sleep(0.1)
    return None if said == wanted else f"{said} in place of {wanted}"


def by_prometheus(_program):
    """A real Prometheus takes the metrics, and sees counters rise, and the exporter go."""
    if not is_here() or not os.path.exists(PROMETHEUS):
        print("(no prometheus here) ", end="")
        yield "without prometheus", None
        return
    with Exporter("--label", "note") as exporter:
        at = exporter.address.split("/")[2]
        with prometheus(at) as address:
            of = f'instance="{at}", job="fdb_audit"'
            exporter.give(text_of(fault(1, note='"x\\\n'), fault(2), watched()))
            yield "faults", queried(address, 'fdb_audit_faults_total{kind="Order"}', [
                f'fdb_audit_faults_total{{{of}, kind="Order"}} 1',
                f'fdb_audit_faults_total{{{of}, kind="Order", note="\\"x\\\\\\n"}} 1'])
            yield "lines", queried(address, "sum(fdb_audit_lines_total)", ["{} 12"])
            yield "how late", queried(address, "max(fdb_audit_late_max)", ["{} 5"])
            yield "the moment", queried(address, "fdb_audit_settled_to", [
                f"fdb_audit_settled_to{{{of}}} 1034"])
            yield "it is heard", queried(address, f"time() - {HEARD} < bool 300", [f"{{{of}}} 1"])
            exporter.give(text_of(fault(3), fault(4), watched(refused=2)))
            yield "more faults", queried(address, "sum(fdb_audit_faults_total)", ["{} 4"])
            yield "how many more", queried(
                address, 'resets(fdb_audit_faults_total{note=""}[1h]) + on() group_left() '
                "sum(fdb_audit_refused_total)", [
                    f'{{{of}, kind="NotAbove"}} 2', f'{{{of}, kind="Order"}} 2'])
            exporter.end()
            yield "it is gone", queried(address, "up", [f"up{{{of}}} 0"])
