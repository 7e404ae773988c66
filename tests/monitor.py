"""A watch as an operator runs it: examples/watch, its rules, its units, and all of it together."""
import contextlib
import json
import os
import random
import re
import shlex
import shutil
import signal
import socket
import struct
import subprocess
import tempfile
import threading
import time

import databases
from audit_logs import PROGRAM
from exported import PROMTOOL, free_ports, written
from exporter import is_here
from fed import Fed
from harness import DONE, ROOT, SECONDS, TRIES, apart, read, run, text_of
from shapes import text_of_lines, timed

FOLDER = "examples/watch"
RULES, CASES = "rules.yml", "rules_test.yml"
UNITS = ("fdb-audit@.service", "fdb-audit-exporter@.service")
ANALYZE, RSYSLOG = shutil.which("systemd-analyze"), shutil.which("rsyslogd", path="/usr/sbin")
# Where the units look for the repository, and how exposed they may be, in tenths.
INSTALLED, EXPOSED = "/opt/fdb-read-version", 20
ALERT = re.compile(r"- alert: (\w+)")
# How long the whole example runs, in seconds, at each try; what it says, and its picture.
RUNS_FOR, RIGHT_FOR = ("20", "20", "40", "80"), ("5", "15", "40", "80")
FIRES = re.compile(rb"after \d+ s StaleRead fires: A read got a version below what was known")
PICTURE, WIDTH, HEIGHT, MOST_BYTES = f"{ROOT}/{FOLDER}/prometheus.png", 1000, 800, 200_000
# Machines whose lines come late: how many, how long a call takes, and how late the last one's are.
MACHINES, CALL, LATE, LINES = 3, 40, 500, 200
# How many lines each of them sends at once.
SENT = 2_000


def rules(_program):
    """Each alert fires on some series and not on others, as promtool finds."""
    if not os.path.exists(PROMTOOL):
        print("(no prometheus here) ", end="")
        yield "without prometheus", None
        return
    for words in (["check", "rules", RULES], ["test", "rules", CASES]):
        ran = run([PROMTOOL, *words], cwd=f"{ROOT}/{FOLDER}")
        yield f"{words}", None if ran.status == DONE else f"{ran}"
    names, cases = ALERT.findall(text_of(f"{FOLDER}/{RULES}")), text_of(f"{FOLDER}/{CASES}")
    for name in names:
        parts = cases.split(f"alertname: {name}\n")[1:]
        fires = sum(it.lstrip().startswith("exp_alerts") for it in parts)
        yield f"{name}, cases", None if 0 < fires < len(parts) else f"{fires} of {len(parts)}"
    # A rule that is left out, or never fires, is found.
    for name in names:
        with tempfile.TemporaryDirectory() as folder:
            shutil.copy(f"{ROOT}/{FOLDER}/{CASES}", folder)
            with open(f"{folder}/{RULES}", "w", encoding="utf-8") as file:
                file.write(text_of(f"{FOLDER}/{RULES}").replace(f"alert: {name}\n", "alert: X\n"))
            ran = run([PROMTOOL, "test", "rules", CASES], cwd=folder)
        yield f"without {name}", None if ran.status else "no case finds it"


# ---- the units


def unit_of(folder, name):
    """A unit of the example, for the repository where that is."""
    with open(f"{folder}/{name}", "w", encoding="utf-8") as file:
        file.write(text_of(f"{FOLDER}/{name}").replace(INSTALLED, ROOT))
    return file.name


def units(_program):
    """systemd finds nothing wrong with the units, and that they expose little."""
    if not ANALYZE:
        print("(no systemd here) ", end="")
        yield "without systemd", None
        return
    with tempfile.TemporaryDirectory() as folder:
        for name in UNITS:
            unit = unit_of(folder, name)
            # (of a machine's own units it may say more)
            ran = run([ANALYZE, "verify", "--recursive-errors=no", unit])
            is_so = ran.status == DONE and b"fdb-audit" not in ran.out + ran.err
            yield f"{name}", None if is_so else f"{ran}"
            ran = run([ANALYZE, "security", "--no-pager", "--offline=true",
                       f"--threshold={EXPOSED}", unit])
            yield f"{name}, exposed", None if ran.status == DONE else f"{ran.err}, {ran.out[-300:]}"


def started_as(name, environment):
    """The words by which systemd starts a unit, with the variables of its file."""
    line = re.search(r"^ExecStart=(.*)$", text_of(f"{FOLDER}/{name}"), re.MULTILINE)[1]
    line = line.replace(f"{INSTALLED}/fdb_audit", PROGRAM).replace(INSTALLED, ROOT)
    for word in shlex.split(line):
        bare = re.fullmatch(r"\$(\w+)", word)
        if bare:
            yield from environment[bare[1]].split()
        else:
            word = re.sub(r"\$\{(\w+)\}", lambda it: environment[it[1]], word)
            yield word.replace("$$", "$")


def counted_by_unit(folder, count):
    """How many stale reads the exporter's unit counts, once they are so many, or after a time."""
    file = f"{folder}/watch.prom"
    how = {"cwd": folder, "env": {**os.environ, "EXPORTER": f"--textfile {file}"}}
    words = [*started_as(UNITS[1], {})]
    with subprocess.Popen(words, stderr=subprocess.DEVNULL, start_new_session=True, **how) as it:
        try:
            stale = 'fdb_audit_faults_total{kind="Order"}'
            return written(file, lambda found: found[stale] == count)[stale]
        finally:
            os.killpg(it.pid, signal.SIGKILL)


def unit_runs(_program):
    """What the units start feeds and keeps, and counts what was told, also where it is started
    again; SIGTERM to what feeds alone ends it in a way that systemd takes as a success."""
    unit = text_of(f"{FOLDER}/{UNITS[0]}")
    with tempfile.TemporaryDirectory() as folder:
        fed = Fed(folder)
        environment = {"LOG": fed.log, "ARGUMENTS": "--follow 100 --show note"}
        words = [*started_as(UNITS[0], environment)]
        fed.started = subprocess.Popen(words, cwd=folder, stderr=subprocess.PIPE)
        with fed:
            is_told = fed.until_told()
            status = fed.stop()
        successes = re.search(r"^SuccessExitStatus=(.*)$", unit, re.MULTILINE)[1].split()
        is_so = is_told and str(status) in successes and "\nKillMode=mixed\n" in unit
        yield "what it starts", None if is_so else f"status {status}, {fed.errors}"
        left = sorted(it for it in os.listdir(folder))
        expected = ["calls", "kept", "kept.files", "kept.lock", "said"]
        yield "its files", None if left == expected else f"{left}"
        told = len(fed.told())
        for which in ("its exporter", "another one") if is_here() else ():
            count = counted_by_unit(folder, told)
            yield which, None if count == told > 0 else f"{count} in place of {told}"


# ---- many machines


def lines_of_machines(late):
    """Lines of machines side by side, as they come: those of the last one so much later."""
    lines = [(at + CALL + late * (of == MACHINES - 1), timed("read", 1, at, at + CALL, f"c{of}"))
             for of in range(MACHINES) for at in range(0, 10 * LINES, 10)]
    return [line for _, line in sorted(lines, key=lambda it: it[0])]


def machines(_program):
    """No line is early where N is as much as a call takes and a machine is late; less is too few.
    So much more it has to be as clocks are apart."""
    for apart_by in (0, 30):
        lines = [{**it, "began": it["began"] + apart_by, "ended": it["ended"] + apart_by}
                 if it["client"] == "c0" else it for it in lines_of_machines(LATE)]
        pieces = [*map(str.encode, text_of_lines(lines).splitlines(keepends=True))]
        for behind, is_early in ((CALL + LATE + apart_by, False),
                                 (CALL + LATE + apart_by - 11, True)):
            ran = apart([PROGRAM, "--follow", str(behind)], pieces)
            is_so = ran.out.startswith(b"audit early" if is_early else b"audit ok")
            yield f"{apart_by} apart, N of {behind}", None if is_so else f"{ran.out[:200]}"


def lines_sent(client):
    """Many lines of a client, of up to 4,096 bytes each, and the pieces in which they come."""
    dice, lines = random.Random(client), []
    for at in range(SENT):
        line = json.dumps({"client": client, "read": at, "note": "n" * dice.choice((0, 9, 4_000))})
        lines.append(f"{line}\n".encode())
    text, cuts = b"".join(lines), []
    while not cuts or cuts[-1] < len(text):
        cuts.append((cuts[-1] if cuts else 0) + dice.randint(1, 9_000))
    return lines, [text[at:to] for at, to in zip([0, *cuts], cuts)]


def send_all(sent, givers):
    """Gives each client's pieces by its own function, all side by side."""
    def send(pieces, give):
        for it in pieces:
            give(it)

    threads = [threading.Thread(target=send, args=(pieces, give))
               for (_, pieces), give in zip(sent, givers)]
    for it in threads:
        it.start()
    for it in threads:
        it.join()


def fault_of_log(log, sent):
    """How a log differs from all lines that were sent, in any order, once they are there."""
    wanted = sorted(line for lines, _ in sent for line in lines)
    size, late = sum(map(len, wanted)), time.monotonic() + SECONDS
    while (not os.path.exists(log) or os.path.getsize(log) < size) and time.monotonic() < late:
        time.sleep(0.05)
    found = sorted(read(log).splitlines(keepends=True)) if os.path.exists(log) else []
    return None if found == wanted else f"{len(found)} lines in place of {len(wanted)}"


def collected(_program):
    """Lines that several processes append to one log are whole there, and so are those that come
    to rsyslog by the example's settings."""
    sent = [lines_sent(f"c{it}") for it in range(MACHINES)]
    with tempfile.TemporaryDirectory() as folder:
        log = f"{folder}/calls.jsonl"
        words = ["sh", "-c", f"exec grep -a --line-buffered '' >> '{log}'"]
        greps = [subprocess.Popen(words, stdin=subprocess.PIPE, bufsize=0) for _ in sent]
        send_all(sent, [it.stdin.write for it in greps])
        for it in greps:
            it.communicate(timeout=SECONDS)
        yield "grep", fault_of_log(log, sent)
    if RSYSLOG:
        yield "rsyslog", by_rsyslog(sent)
    else:
        print("(no rsyslog here) ", end="")


def by_rsyslog(sent):
    """How a log differs from what was sent to rsyslog at once, or None."""
    with tempfile.TemporaryDirectory() as folder:
        log, links = f"{folder}/calls.jsonl", []
        settings = text_of(f"{FOLDER}/rsyslog.conf").replace("/var/log/calls.jsonl", log)
        words = ["setpriv", "--pdeathsig", "KILL", RSYSLOG, "-n", "-f", f"{folder}/rsyslog.conf",
                 "-i", f"{folder}/pid"]
        for _ in range(TRIES):
            [port] = free_ports(1)
            with open(f"{folder}/rsyslog.conf", "w", encoding="utf-8") as file:
                file.write(settings.replace("5170", str(port)))
            with subprocess.Popen(words, stderr=subprocess.DEVNULL) as started:
                try:
                    links = [*filter(None, (connected(started, port) for _ in sent))]
                    # (another may have taken the port)
                    if len(links) == len(sent):
                        send_all(sent, [it.sendall for it in links])
                        return fault_of_log(log, sent)
                finally:
                    for it in links:
                        it.close()
                    started.kill()
        return "it did not begin"


def connected(started, port):
    """A connection to a program, once that listens; None where it ended."""
    late = time.monotonic() + SECONDS
    while started.poll() is None and time.monotonic() < late:
        with contextlib.suppress(OSError):
            return socket.create_connection(("127.0.0.1", port))
        time.sleep(0.05)
    return None


# ---- all of it


def whole(_program):
    """The whole example: its alert fires, what is told is so, and a signal leaves nothing."""
    ran = databases.ran("watch", "", RUNS_FOR)
    if ran.status == databases.NOT_HERE:
        print(f"({ran.err.decode().strip()}) ", end="")
        yield "without what it needs", None
        return
    is_so = ran.status == databases.AS_SAID and FIRES.search(ran.out)
    is_so = is_so and b"log.html: " in ran.out and b'{kind="Order"} is ' in ran.out
    fault = f"status {ran.status}; it said {ran.out[-900:]!r} {ran.err[-300:]!r}"
    yield "a stale read alerts", None if is_so else fault
    ran = databases.ran("watch", "1", RIGHT_FOR)
    is_so = ran.status == databases.AS_SAID and b" fires: A " not in ran.out
    yield "without one none does", None if is_so else f"status {ran.status}, {ran.out[-900:]!r}"
    for sent in (signal.SIGTERM, signal.SIGKILL):
        yield f"ended by {sent.name}", databases.fault_midway("watch", RUNS_FOR, sent)


def pictured(_program):
    """The picture of Prometheus' page is there, and of the size that is asked of the browser."""
    image, size = read(PICTURE), struct.pack(">II", WIDTH, HEIGHT)
    is_right = image.startswith(b"\x89PNG") and image[16:24] == size and len(image) <= MOST_BYTES
    yield "prometheus.png", None if is_right else f"it is no such image: {len(image)} bytes"
