"""Trace files of FoundationDB's clients: the lines that tools/from_foundationdb makes of them."""
import contextlib
import json
import os
import queue
import signal
import subprocess
import tempfile
import threading

from harness import EXAMPLES, OTHER_ARGUMENTS, ROOT, read, run

TOOL = f"{ROOT}/tools/from_foundationdb"
# The seconds after which what does not come is taken as lost; and the lines of a large file, and in
# how few pieces at most they come.
BOUND, LARGE, PIECES = 300, 20_000, 1_000
# Python may be told to hold nothing back, which would hide what the tool does.
BUFFERED = {name: it for name, it in os.environ.items() if name != "PYTHONUNBUFFERED"}


def read_version(**members):
    """An event for a read version, as FoundationDB 7.1 writes it, with some members changed."""
    return {
        "Severity": "10", "Time": "1579217063.123456", "DateTime": "2020-01-16T23:24:23Z",
        "Type": "TransactionTrace_GetVersion", "ID": "0000000000000000", "TransactionID": "t1",
        "Latency": "0.00123", "PriorityType": "0", "ReadVersion": "100",
        "Machine": "10.0.0.1:4500", "LogGroup": "default", **members,
    }


def commit(**members):
    """The same for a commit."""
    return read_version(**{"Type": "TransactionTrace_Commit", "CommitVersion": "200", **members})


def without(event, name):
    return {key: value for key, value in event.items() if key != name}


READ = '{"client":"10.0.0.1:4500","read":100,"began":1579217063122226,"ended":1579217063123456}'
COMMIT = READ.replace('"read":100', '"commit":200')
FAULTY = (0, 0, 0, 0, 1, 0)
# Each event, or text of a line; the line that it becomes, if it does; and how many reads and
# commits there are, events of other types, commits without a version, faulty events, and cut lines.
EVENTS = (
    ("a read", read_version(), READ, (1, 0, 0, 0, 0, 0)),
    ("a commit", commit(), COMMIT, (0, 1, 0, 0, 0, 0)),
    ("no machine", without(read_version(), "Machine"),
     READ.replace('"client":"10.0.0.1:4500",', ""), (1, 0, 0, 0, 0, 0)),
    ("a machine that is no text", read_version(Machine=5),
     READ.replace('"client":"10.0.0.1:4500",', ""), (1, 0, 0, 0, 0, 0)),
    ("a machine with bytes that are no UTF-8", json.dumps(read_version(Machine="?")).replace(
        '"?"', '"\udcff"'), READ.replace("10.0.0.1:4500", "\\ufffd"), (1, 0, 0, 0, 0, 0)),
    ("numbers that are no texts", read_version(ReadVersion=100, Latency=0.00123), READ,
     (1, 0, 0, 0, 0, 0)),
    # 2.0000001 s is 2,000,000.1 us, and began 0.5 s before: 1,500,000.1.
    ("between two microseconds", commit(Time="2.0000001", Latency="0.5"),
     '{"client":"10.0.0.1:4500","commit":200,"began":1500000,"ended":2000001}', (0, 1, 0, 0, 0, 0)),
    # 2.0000008 s and 1,500,000.8 us: to the nearest microsecond it would begin too late.
    ("nearer to the next microsecond", commit(Time="2.0000008", Latency="0.5"),
     '{"client":"10.0.0.1:4500","commit":200,"began":1500000,"ended":2000001}', (0, 1, 0, 0, 0, 0)),
    ("a time of 16 digits that is no text", read_version(Time=1579217063.123456), READ,
     (1, 0, 0, 0, 0, 0)),
    ("a latency equal to the time", commit(Time="7", Latency="7"),
     '{"client":"10.0.0.1:4500","commit":200,"began":0,"ended":7000000}', (0, 1, 0, 0, 0, 0)),
    ("version 0", commit(CommitVersion="0"), COMMIT.replace("200", "0"), (0, 1, 0, 0, 0, 0)),
    ("no time between", commit(Time="7", Latency="0"),
     '{"client":"10.0.0.1:4500","commit":200,"began":7000000,"ended":7000000}', (0, 1, 0, 0, 0, 0)),
    ("the greatest version", read_version(ReadVersion=str(2**63 - 1)),
     READ.replace("100", str(2**63 - 1)), (1, 0, 0, 0, 0, 0)),
    ("a commit that wrote nothing", commit(CommitVersion="-1"), None, (0, 0, 0, 1, 0, 0)),
    ("an event of another type", commit(Type="TransactionTrace_CommitError"), None,
     (0, 0, 1, 0, 0, 0)),
    ("no type", without(commit(), "Type"), None, (0, 0, 1, 0, 0, 0)),
    ("a type that is no text", read_version(Type=["x"]), None, (0, 0, 1, 0, 0, 0)),
    ("a read without a version", read_version(ReadVersion="-1"), None, FAULTY),
    ("too great a version", read_version(ReadVersion=str(2**63)), None, FAULTY),
    ("no version", without(commit(), "CommitVersion"), None, FAULTY),
    ("a version without end", json.dumps(commit(CommitVersion=float("inf"))), None, FAULTY),
    ("no latency", without(commit(), "Latency"), None, FAULTY),
    ("a latency below 0", commit(Latency="-1"), None, FAULTY),
    ("a latency of more than the time", commit(Time="1", Latency="1.5"), None, FAULTY),
    ("a time that is none", commit(Time="nan"), None, FAULTY),
    ("a list for a time", commit(Time=["1"]), None, FAULTY),
    ("a line that was cut", json.dumps(commit())[:90], None, (0, 0, 0, 0, 0, 1)),
    ("a line that is no object", "[1]", None, (0, 0, 0, 0, 0, 1)),
    ("lists in lists without end", "[" * 100_000, None, (0, 0, 0, 0, 0, 1)),
    ("a version with a fraction", json.dumps(commit(CommitVersion=200.0)), None, FAULTY),
    ("a read again", read_version(), READ, (1, 0, 0, 0, 0, 0)),
    ("an empty line", "", None, (0, 0, 0, 0, 0, 0)),
    ("a blank line", " \t", None, (0, 0, 0, 0, 0, 0)),
)


def said(counts):
    """What is said of how many events were taken and passed over."""
    reads, commits, others, readonly, faulty, cut = counts
    return (
        f"from_foundationdb: {reads} reads, {commits} commits; passed over: {others} events of "
        f"other types, {readonly} commits without a version, {faulty} faulty events, {cut} cut "
        "lines\n"
    )


def fault_of_tool(ran, lines, counts):
    """What is wrong with a run of the tool, or None."""
    out = "".join(f"{it}\n" for it in lines)
    wanted = (0 if counts[0] + counts[1] else 2, out.encode(), said(counts).encode())
    found = (ran.status, ran.out, ran.err)
    return None if found == wanted else f"{found} in place of {wanted}"


def text_of(event):
    return event if isinstance(event, str) else json.dumps(event)


def bytes_of(event):
    return text_of(event).encode(errors="surrogateescape")


def traces_of_foundationdb(_program):
    """Each kind of event alone, all in one, and all in two files, of which one has no last end."""
    lines, counts = [], [0] * 6
    for name, event, line, count in EVENTS:
        wanted = [line] if line else []
        yield name, fault_of_tool(run([TOOL], bytes_of(event)), wanted, count)
        lines += wanted
        counts = [a + b for a, b in zip(counts, count)]
    texts = [text_of(event) for _, event, _, _ in EVENTS]
    yield "all at once", fault_of_tool(run([TOOL], bytes_of("\n".join(texts))), lines, counts)
    yield "the example", fault_of_tool(run([TOOL, f"{EXAMPLES}/logs/trace.json"], b""), read(
        f"{EXAMPLES}/logs/trace.jsonl").decode().splitlines(), (2, 1, 0, 0, 0, 0))
    with tempfile.TemporaryDirectory() as folder:
        names = [f"{folder}/trace.{part}.json" for part in (1, 2)]
        for name, part in zip(names, (texts[:5], texts[5:])):
            with open(name, "w", encoding="utf-8", errors="surrogateescape") as file:
                file.write("\n".join(part))
        yield "two files", fault_of_tool(run([TOOL, *names], b""), lines, counts)
        missing = f"{folder}/none.json"
        ran = run([TOOL, missing], b"")
        fine = ran.status == 1 and missing.encode() in ran.err and not ran.out
        yield "a file that is not there", None if fine else f"{ran}"


# ---- while the files grow


class Growing:
    """The tool while what it reads grows: its lines, of which each is waited for up to a bound."""

    def __init__(self, *words):
        self.said = queue.Queue()
        streams = dict.fromkeys(("stdin", "stdout", "stderr"), subprocess.PIPE)
        self.started = subprocess.Popen([TOOL, *words], bufsize=0, env=BUFFERED, **streams)
        self.listener = threading.Thread(target=self.listen, daemon=True)
        self.listener.start()

    def __enter__(self):
        return self

    def __exit__(self, *_):
        self.started.kill()
        self.started.wait()

    def give(self, text):
        self.started.stdin.write(text.encode())

    def listen(self):
        for line in self.started.stdout:
            self.said.put(line.decode().rstrip("\n"))

    def fault(self, *wanted):
        """What comes next in place of these lines, or None."""
        found = []
        with contextlib.suppress(queue.Empty):
            while len(found) < len(wanted):
                found.append(self.said.get(timeout=BOUND))
        return None if found == [*wanted] else f"{found} in place of {wanted}"

    def end_fault(self, *wanted):
        """How it ends in place of this status and what it is to say, with no line more, or None."""
        try:
            ended = self.started.wait(BOUND)
        except subprocess.TimeoutExpired:
            return f"it had not ended in {BOUND} seconds"
        self.listener.join(BOUND)
        found = (ended, self.started.stderr.read().decode())
        more = [*self.said.queue]
        return None if (found, more) == (wanted, []) else f"{found}, {more} in place of {wanted}"


def event_at(second, **members):
    """An event of that second, as its trace has it, and the line that it becomes."""
    line = {"client": "10.0.0.1:4500", "read": 100, "began": second * 1_000_000 - 1_230,
            "ended": second * 1_000_000}
    event = read_version(Time=f"{second}.000000", **members)
    return json.dumps(event) + "\n", json.dumps(line, separators=(",", ":"))


def slow_traces(_program):
    """A line comes out once its event is whole, while more may come; many at once come at once."""
    (events, lines) = zip(*map(event_at, range(1, 6)))
    with Growing() as growing:
        for event, line in zip(events[:2], lines):
            growing.give(event)
            yield f"an event in a pipe: {line}", growing.fault(line)
        growing.give(events[2][:50])
        growing.give(events[2][50:] + events[3] + events[4][:20])
        yield "two events, of which the first came in parts", growing.fault(*lines[2:4])
        growing.give(events[4][20:].rstrip("\n"))
        growing.started.stdin.close()
        yield "the last one, without an end", growing.fault(lines[4])
        yield "the end", growing.end_fault(0, said((5, 0, 0, 0, 0, 0)))
    with Growing() as growing:
        growing.give(events[0])
        yield "an event before a signal", growing.fault(lines[0])
        growing.started.send_signal(signal.SIGINT)
        yield "a signal", growing.end_fault(-signal.SIGINT, "")
    with tempfile.NamedTemporaryFile() as file:
        file.write(events[0].encode() * LARGE)
        file.flush()
        pieces = pieces_of([TOOL, file.name])
    count = sum(it.count(b"\n") for it in pieces)
    is_right = count == LARGE and len(pieces) <= PIECES
    yield "a large file", None if is_right else f"{count} lines in {len(pieces)} pieces"


def pieces_of(words):
    """What a command writes, in the pieces in which it does, or in pages of these."""
    reader, writer = os.pipe2(os.O_DIRECT)
    with subprocess.Popen(words, stdout=writer, stderr=subprocess.DEVNULL, env=BUFFERED):
        os.close(writer)
        found = []
        while piece := os.read(reader, 1 << 16):
            found.append(piece)
    os.close(reader)
    return found


def helped(_program):
    """The help tells of all arguments, and others are refused."""
    ran = run([TOOL, "--help"], b"")
    is_right = ran.status == 0 and not ran.err and all(it in ran.out for it in (
        b"--follow FOLDER", b"TRACE", b"trace.ADDRESS.PORT.TIME.RANDOM.0.1.json"))
    yield "the help", None if is_right else f"{ran}"
    for words in (["--nothing"], ["--follow"], ["--follow", "/", "trace.json"]):
        ran = run([TOOL, *words], b"")
        is_right = ran.status == OTHER_ARGUMENTS and not ran.out and ran.err
        yield f"{words}", None if is_right else f"{ran}"


def followed_traces(_program):
    """Trace files of a folder are read as they grow, and those that come behind them."""
    first, second, third = "4500.1579217063.aBcD", "4501.1579217064.Ef.G", "4502.1579217065.H"
    (events, lines) = zip(*map(event_at, range(15)))
    with tempfile.TemporaryDirectory() as folder:
        path_of = f"{folder}/trace.10.0.0.1.{{}}.json".format

        def add(name, text):
            with open(path_of(name), "a", encoding="utf-8") as file:
                file.write(text)

        # (what is not the newest file of its process is not read, nor what has another name)
        add(f"{first}.0.8", events[0])
        add(f"{first}.0.9", events[1] + events[4] + events[6][:30])
        add(f"{second}.0.9", events[0])
        add(f"{second}.1.10", events[2] + events[5])
        add("summary", events[0])
        with Growing("--follow", folder) as growing:
            yield "what is there", growing.fault(*(lines[it] for it in (1, 2, 4, 5)))
            add(f"{first}.0.9", events[6][30:])
            yield "the rest of an event", growing.fault(lines[6])
            add(f"{second}.1.10", events[7])
            yield "another process", growing.fault(lines[7])
            add(f"{first}.0.9", events[8] + events[9].rstrip("\n"))
            yield "an event, and one without an end", growing.fault(lines[8])
            add(f"{first}.1.10", events[10])
            yield "the next file", growing.fault(*lines[9:11])
            add(f"{first}.1.11", events[11][:9])
            add(f"{first}.1.12", events[12])
            yield "two files, of which one ends with half an event", growing.fault(lines[12])
            add(f"{third}.0.1", events[13])
            yield "a process that came later", growing.fault(lines[13])
            os.remove(path_of(f"{first}.1.12"))
            add(f"{first}.1.13", events[14])
            yield "a file behind one that is gone", growing.fault(lines[14])
            growing.started.send_signal(signal.SIGTERM)
            yield "a signal", growing.end_fault(0, said((12, 0, 0, 0, 0, 1)))
        ran = run([TOOL, "--follow", f"{folder}/none"], b"")
    is_right = ran.status == 1 and b"none: No such file" in ran.err and not ran.out
    yield "a folder that is not there", None if is_right else f"{ran}"


def followed_from_nothing(_program):
    """Files come to a folder that had none but in another format, which is told."""
    event, line = event_at(1)
    with tempfile.TemporaryDirectory() as folder:
        name = f"{folder}/trace.10.0.0.1.4500.1579217063.aBcD.0.1"
        with open(f"{name}.xml", "w", encoding="utf-8"):
            pass
        with Growing("--follow", folder) as growing:
            told = growing.started.stderr.readline().decode()
            yield "another format", None if "set trace_format to json" in told else told
            with open(f"{name}.json", "w", encoding="utf-8") as file:
                file.write(event)
            yield "the first file", growing.fault(line)
            growing.started.send_signal(signal.SIGINT)
            yield "a signal", growing.end_fault(0, said((1, 0, 0, 0, 0, 0)))
