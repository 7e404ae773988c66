"""The metrics of a watch: what tools/exporter counts, serves and passes on."""
import json
import os
import re
import shutil
import subprocess
import tempfile
import threading
import time
import urllib.request

from follow_model import judged_as
from harness import DONE, OTHER_ARGUMENTS, ROOT, SECONDS, run
from pictured_watches import LOG

TOOL = f"{ROOT}/tools/exporter"
PYTHON, LIBRARY = "/usr/bin/python3", "/usr/lib/python3/dist-packages/prometheus_client"
SERVED = re.compile(r"exporter: (http://127\.0\.0\.1:\d+/metrics)\n")
# What there is before anything is told.
NOTHING = {
    'fdb_audit_faults_total{kind="Order"}': 0, 'fdb_audit_faults_total{kind="NotAbove"}': 0,
    'fdb_audit_late_max{kind="Order"}': 0, 'fdb_audit_late_max{kind="NotAbove"}': 0,
    'fdb_audit_lines_total{kind="read"}': 0, 'fdb_audit_lines_total{kind="commit"}': 0,
    'fdb_audit_lines_total{kind="ask"}': 0, 'fdb_audit_lines_total{kind="report"}': 0,
    "fdb_audit_refused_total": 0, "fdb_audit_early_total": 0, "fdb_audit_ahead_total": 0,
    "fdb_audit_open": 0, "fdb_audit_newest_end": 0, "fdb_audit_settled_to": 0,
    "fdb_audit_told_again_total": 0, "fdb_audit_not_said_total": 0,
}
HEARD = "fdb_audit_heard_seconds"


def is_here():
    """Whether prometheus_client is; else it is said."""
    if not os.path.exists(LIBRARY):
        print("(no python3-prometheus-client here) ", end="")
    return os.path.exists(LIBRARY)


def fault(line, kind="Order", late=5, **members):
    """A fault at a line, as a watch tells it."""
    at = {"line": line, "client": "b", "read": 100, "began": 10 * line, "ended": 10 * line + 4}
    first = {"line": 1, "client": "a", "commit": 200, "began": 1, "ended": 4}
    shown = {"members": members} if members else {}
    return {"fault": kind, "at": {**at, **shown}, "late": late, "first": {**first, **shown},
            "reason": "known", "known": 200, "by": {**first, **shown}, "means": "ended"}


def watched(**changed):
    """The counts of a watch, some of them changed."""
    counts = {"lines": 12, "reads": 7, "commits": 4, "asks": 1, "reports": 0, "refused": 0,
              "early": 0, "ahead": 0, "open": 3, "kept": 2, "newest_end": 1_234,
              "settled_to": 1_034}
    return {"watched": {**counts, **changed}}


def text_of(*objects):
    return "".join(f"{json.dumps(it)}\n" if isinstance(it, dict) else it for it in objects).encode()


def asked(address):
    """What is served, by metric and labels."""
    with urllib.request.urlopen(address, timeout=SECONDS) as answer:
        return values_of(answer.read().decode())


def values_of(text):
    parted = [it.rpartition(" ") for it in text.splitlines() if not it.startswith("#")]
    return {name: float(value) for name, _, value in parted}


class Exporter:
    """The exporter, whose metrics are served, and what it passes on."""

    def __init__(self, *words, out=subprocess.PIPE):
        self.started = subprocess.Popen([TOOL, "--port", "0", *words], bufsize=0, stdout=out,
                                        stdin=subprocess.PIPE, stderr=subprocess.PIPE)
        self.passed, self.came = bytearray(), threading.Condition()
        self.listener = threading.Thread(target=self.listen, daemon=True)
        self.listener.start()
        said = self.started.stderr.readline().decode()
        self.address = SERVED.fullmatch(said)[1]

    def listen(self):
        while self.started.stdout and (piece := self.started.stdout.read(65_536)):
            with self.came:
                self.passed += piece
                self.came.notify()

    def give(self, text):
        write_all(self.started.stdin, text)

    def has_passed(self, text):
        """Whether it passes on just this, and that soon."""
        with self.came:
            self.came.wait_for(lambda: len(self.passed) >= len(text), SECONDS)
            return bytes(self.passed) == text

    def until(self, holds):
        """The metrics once this holds of them, or what they are after a time."""
        late = time.monotonic() + SECONDS
        while not holds(found := asked(self.address)) and time.monotonic() < late:
            time.sleep(0.02)
        return found

    def end(self):
        """Its status once its input has ended, and what it said on standard error."""
        self.started.stdin.close()
        said = self.started.stderr.read()
        self.listener.join(SECONDS)
        return self.started.wait(SECONDS), said.decode()

    def __enter__(self):
        return self

    def __exit__(self, *_):
        self.started.kill()
        self.started.wait()


def write_all(file, text):
    view = memoryview(text)
    while view:
        view = view[file.write(view):]


def differing(found, changed):
    """How metrics differ from these changes of what there is before anything is told, or None."""
    wanted = {**NOTHING, **changed}
    found = {name: it for name, it in found.items() if name != HEARD}
    names = sorted(it for it in {*found, *wanted} if found.get(it) != wanted.get(it))
    return "; ".join(f"{it} is {found.get(it)} in place of {wanted.get(it)}" for it in names) or (
        None)


def faults_of(kind, count, late):
    return {f'fdb_audit_faults_total{{kind="{kind}"}}': count,
            f'fdb_audit_late_max{{kind="{kind}"}}': late}


# The metrics of `watched()`.
COUNTED = {'fdb_audit_lines_total{kind="read"}': 7, 'fdb_audit_lines_total{kind="commit"}': 4,
           'fdb_audit_lines_total{kind="ask"}': 1, "fdb_audit_open": 3,
           "fdb_audit_newest_end": 1_234, "fdb_audit_settled_to": 1_034}
BY_NOTE = 'fdb_audit_faults_total{{kind="{}",note="{}"}}'.format
NONE_BY_NOTE = {**dict.fromkeys([*NOTHING][:2]), BY_NOTE("Order", ""): 0,
                BY_NOTE("NotAbove", ""): 0}
ENDS = [{"total": {"lines": 12, "refused": 0, "early": 0}, "arguments": {"follow": 5}},
        {"faults": 2, "Order": 2}, {"faults": 2, "client": "b"}]
# What comes, and what is counted then beside what there is at the beginning; and arguments.
CASES = (
    ("nothing", "", {}, []),
    ("counts", watched(), COUNTED, []),
    ("counts, and later ones", [watched(refused=9), watched(reads=8, refused=1, early=2, ahead=3)],
     {**COUNTED, 'fdb_audit_lines_total{kind="read"}': 8, "fdb_audit_refused_total": 1,
      "fdb_audit_early_total": 2, "fdb_audit_ahead_total": 3}, []),
    ("counts with one that is not known", watched(judged=1, more={"a": 1}), COUNTED, []),
    ("a stale read", fault(9), faults_of("Order", 1, 5), []),
    ("two, and their totals", [fault(9, late=7), fault(10), watched(), *ENDS],
     {**faults_of("Order", 2, 7), **COUNTED}, []),
    ("one that nobody knows to be late",
     {it: value for it, value in fault(9).items() if it != "late"}, faults_of("Order", 1, 0), []),
    ("a version above 2^53", fault(9, late=2**64 - 1), faults_of("Order", 1, float(2**64)), []),
    ("each kind", [fault(3, it) for it in ("Order", "Wrong", "NotAbove", "Twice", "Stray")],
     {name: it for kind in ("Order", "Wrong", "NotAbove", "Twice", "Stray")
      for name, it in faults_of(kind, 1, 5).items()}, []),
    ("one told again", [fault(9), fault(10), watched(), fault(9), fault(9, "NotAbove")],
     {**faults_of("Order", 2, 5), **faults_of("NotAbove", 1, 5), **COUNTED,
      "fdb_audit_told_again_total": 1}, []),
    ("one told again, with another member", [fault(9, note="x"), fault(9, note="y"), fault(9)],
     {**faults_of("Order", 1, 5), "fdb_audit_told_again_total": 2}, []),
    ("the line of another log", [fault(9), {**fault(9), "at": {**fault(9)["at"], "began": 1}}],
     faults_of("Order", 2, 5), []),
    ("what stood on standard error", ["fdb_audit: early line 7: it began 1200 before\n", fault(9)],
     faults_of("Order", 1, 5), []),
    ("a history", [{"history": 0, "ask": 2, "at": None, "shared": False}], {}, []),
    ("texts of a member", [fault(1, note="x"), fault(2, note="y"), fault(3, note="x"), fault(4)],
     {**NONE_BY_NOTE, **faults_of("Order", None, 5), BY_NOTE("Order", ""): 1,
      BY_NOTE("Order", "x"): 2, BY_NOTE("Order", "y"): 1}, ["--label", "note"]),
    ("texts that are none", [
        fault(at, note=it) for at, it in enumerate((None, 5, ["a", {}], True, ""))],
     {**NONE_BY_NOTE, **faults_of("Order", None, 5), BY_NOTE("Order", ""): 2,
      BY_NOTE("Order", "5"): 1, BY_NOTE("Order", '[\\"a\\",{}]'): 1, BY_NOTE("Order", "true"): 1},
     ["--label", "note"]),
    ("hostile texts", [fault(1, note='"} 1\n'), fault(2, note="\\"), fault(3, note="\ud800"),
                       fault(4, note="n" * 300), fault(5, note="n" * 301)],
     {**NONE_BY_NOTE, **faults_of("Order", None, 5), BY_NOTE("Order", '\\"} 1\\n'): 1,
      BY_NOTE("Order", "\\\\"): 1, BY_NOTE("Order", "?"): 1, BY_NOTE("Order", "n" * 100): 2},
     ["--label", "note"]),
    ("more texts than there may be",
     [*(fault(it, note=f"n{it}") for it in range(1, 151)), fault(200, note="n7")],
     {**NONE_BY_NOTE, **faults_of("Order", None, 5), BY_NOTE("Order", "n7"): 2,
      **{BY_NOTE("Order", f"n{it}"): 1 for it in range(1, 101) if it != 7},
      BY_NOTE("Order", "other"): 50}, ["--label", "note"]),
    ("a member that is no label", [fault(1, **{"7-up": "x"})],
     {**dict.fromkeys([*NOTHING][:2]), **faults_of("Order", None, 5),
      'fdb_audit_faults_total{kind="Order",member_7_up=""}': 0,
      'fdb_audit_faults_total{kind="NotAbove",member_7_up=""}': 0,
      'fdb_audit_faults_total{kind="Order",member_7_up="x"}': 1}, ["--label", "7-up"]),
    ("a member of the name of a label", [fault(1, kind_="x")],
     {**dict.fromkeys([*NOTHING][:2]), **faults_of("Order", None, 5),
      'fdb_audit_faults_total{kind="Order",member_kind=""}': 1,
      'fdb_audit_faults_total{kind="NotAbove",member_kind=""}': 0}, ["--label", "kind"]),
)
# Lines that are none of a watch.
BROKEN = (
    "", "nil", "{", '{"fault":"Order","at":{"line":9', "[1]", "7", '"fault"', "\xff", "[" * 100_000,
    '{"fault":"Order"}', '{"fault":"Order","at":[]}', '{"fault":"Order","at":{"line":"9"}}',
    '{"fault":"Order","at":{"line":-1}}', '{"fault":"Order","at":{"line":1.0}}',
    '{"fault":"Other","at":{"line":9}}', '{"fault":["Order"],"at":{"line":9}}',
    '{"fault":"Order","at":{"line":9},"late":"5"}', '{"fault":"Order","at":{"line":9},"late":-5}',
    '{"fault":"Order","at":{"line":9,"members":[]}}', '{"watched":7}', '{"watched":{"reads":"7"}}',
    '{"watched":{"reads":70,"refused":null}}', '{"watched":{"reads":true}}',
    "audit fault: Order 2: client", '{"watched":{"reads":%s}}' % ("9" * 5_000),
)


def counted(_program):
    """What is counted of made streams, of what a watch tells by the model, and how it ends."""
    if not is_here():
        yield "without prometheus_client", None
        return
    out = judged_as(LOG, ["--follow", "5", "--json"]).out.decode().splitlines(keepends=True)
    out = [it for it in out if not it.startswith('{"watched"')]
    said = ("what a watch tells", out, faults_of("Order", 1, 1), [])
    for name, given, changed, words in (*CASES, said):
        given = text_of(*given) if isinstance(given, list) else text_of(given)
        wanted = {it: value for it, value in {**NOTHING, **changed}.items() if value is not None}
        dropped = [it for it, value in changed.items() if value is None]
        with Exporter(*words) as exporter:
            before = time.time()
            exporter.give(given)
            is_passed = exporter.has_passed(given)
            # (of what counts nothing is seen when it was heard)
            is_heard = lambda found: not given or before <= found[HEARD] <= time.time()
            is_so = lambda found: is_heard(found) and all(
                found.get(it) == value for it, value in wanted.items())
            found = exporter.until(is_so)
            fault_found = differing({**dict.fromkeys(dropped), **found}, changed)
            is_whole = is_passed and is_heard(found)
            yield name, fault_found or (None if is_whole else f"{exporter.passed}, {found}")
            ended = exporter.end()
            yield f"{name}, ended", None if ended == (DONE, "") else f"{ended}"


def broken(_program):
    """A line that is none of a watch is passed on, counted and told, and so is half of one."""
    if not is_here():
        yield "without prometheus_client", None
        return
    for line in BROKEN:
        text = line.encode("latin-1")
        with Exporter() as exporter:
            exporter.give(text_of(fault(9), watched()) + text + b"\n" + text_of(fault(10)))
            wanted = {**faults_of("Order", 2, 5), **COUNTED, "fdb_audit_not_said_total": 1}
            found = exporter.until(lambda it: it['fdb_audit_faults_total{kind="Order"}'] == 2)
            status, said = exporter.end()
            is_told = said.startswith("exporter: line 3 is not what fdb_audit --json writes: ")
            is_told = is_told and said.endswith("; 1 so far\n") and said.count("\n") == 1
            is_so = status == DONE and is_told
            yield f"{line[:60]}", differing(found, wanted) or (None if is_so else f"{said}")
    with Exporter() as exporter:
        exporter.give(b"nil\n" * 9 + text_of(fault(9))[:-9])
        exporter.until(lambda it: it["fdb_audit_not_said_total"] == 9)
        status, said = exporter.end()
        numbers = re.findall(r"line (\d+) is not .*; (\d+) so far", said)
        is_so = status == DONE and numbers == [(it, it) for it in ("1", "2", "4", "8")]
        yield "nine of them, and half a line", None if is_so else f"{status}, {said}"
    with Exporter() as exporter:
        half = text_of(fault(9))[:-9]
        exporter.give(half)
        is_so = exporter.has_passed(half)
        status, said = exporter.end()
        is_so = is_so and status == DONE and "line 1 is not what" in said
        yield "half a line at the end", None if is_so else f"{status}, {said}"


def in_time(_program):
    """Each piece goes on at once, be it part of a line, while more may come."""
    if not is_here():
        yield "without prometheus_client", None
        return
    text = text_of(fault(9), watched(), fault(10))
    cuts = [0, 1, 50, len(text) // 2, len(text) - 1, len(text)]
    with Exporter() as exporter:
        for at, to in zip(cuts, cuts[1:]):
            exporter.give(text[at:to])
            yield f"{to} bytes", None if exporter.has_passed(text[:to]) else f"{exporter.passed}"
        found = exporter.until(lambda it: it['fdb_audit_faults_total{kind="Order"}'] == 2)
        yield "what is counted", differing(found, {**faults_of("Order", 2, 5), **COUNTED})
        heard = found[HEARD]
        time.sleep(0.05)
        exporter.give(text_of(watched()))
        found = exporter.until(lambda it: it[HEARD] > heard)
        yield "when it was heard", None if heard < found[HEARD] <= time.time() else f"{found}"


def helped(_program):
    """The help tells of all arguments, others are refused, and what is missing is said."""
    if not is_here():
        yield "without prometheus_client", None
        return
    ran = run([TOOL, "--help"])
    said = (b"--port N", b"--address A", b"--textfile FILE", b"--label MEMBER", b"/metrics",
            b"the last 10,000 faults", b"tail -n +1 -F said | tools/exporter")
    is_right = ran.status == 0 and not ran.err and all(it in ran.out for it in said)
    yield "the help", None if is_right else f"{ran}"
    for words in (["--nothing"], ["--port"], ["--port", "x"], ["said"]):
        ran = run([TOOL, *words])
        is_right = ran.status == OTHER_ARGUMENTS and not ran.out and ran.err
        yield f"{words}", None if is_right else f"{ran}"
    ran = run([PYTHON, "-B", "-I", "-S", TOOL])
    is_right = ran.status == 1 and b"apt-get install python3-prometheus-client" in ran.err
    yield "no library", None if is_right and ran.err.count(b"\n") == 1 else f"{ran}"
    if shutil.which("mypy"):
        yield "mypy --strict", fault_of_types()
    else:
        print("(there is no mypy: left out) ", end="")


def fault_of_types():
    """What mypy says of the exporter."""
    with tempfile.TemporaryDirectory() as room:
        words = ["mypy", "--strict", "--cache-dir", room, "--python-executable", PYTHON]
        ran = run([*words, "exporter", "exported.py"], cwd=f"{ROOT}/tools")
    return None if ran.status == DONE else ran.out[-1000:].decode(errors="replace")
