"""A log by key on Dask: what tools/audit_on_dask prints of it, whatever dies or is refused."""
import contextlib
import json
import os
import random
import signal
import subprocess
import tempfile
import threading
import time
from typing import Iterator, Optional

from audit_logs import PROGRAM, TIMED, UNTIMED
from harness import MANY_SECONDS, ROOT, Ran, difference, fault_of, read, run

Case = Iterator[tuple[str, Optional[str]]]

TOOL = f"{ROOT}/tools/audit_on_dask"
# Debian's python has its package.
PYTHON = "/usr/bin/python3"
WORKERS, FILES, LINES = 3, 12, 300_000
# How long something may take until it is there, in seconds, and between two looks at it.
WAIT, LOOK = 300, 0.02
BLOCK = 1 << 20


class Cluster:
    """A scheduler and workers, processes of their own that talk over loopback."""

    def __init__(self, folder: str, count: int, memory: str):
        self.folder, self.file = folder, f"{folder}/scheduler.json"
        self.count, self.memory = count, memory
        self.processes: list[subprocess.Popen] = []
        self.start("dask_scheduler", "--host", "127.0.0.1", "--port", "0", "--no-show",
                   "--scheduler-file", self.file)
        for number in range(count):
            self.worker(number)

    def start(self, module: str, *words: str) -> subprocess.Popen:
        with open(f"{self.folder}/{len(self.processes)}.log", "wb") as log:
            process = subprocess.Popen(
                [PYTHON, "-m", f"distributed.cli.{module}", "--no-dashboard", *words],
                stdout=log, stderr=log, stdin=subprocess.DEVNULL, start_new_session=True,
            )
        self.processes.append(process)
        return process

    def worker(self, number: int) -> subprocess.Popen:
        return self.start("dask_worker", "--scheduler-file", self.file, "--nthreads", "1",
                          "--no-nanny", "--memory-limit", self.memory, "--host", "127.0.0.1",
                          "--local-directory", self.place(number))

    def place(self, number: int) -> str:
        """Where a worker has its files."""
        return f"{self.folder}/worker-{number}"

    def address(self) -> str:
        """The scheduler's address, once it and its workers are there."""
        until(lambda: os.path.exists(self.file), "a scheduler")
        address = json.loads(read(self.file))["address"]
        for number in range(self.count):
            until(lambda: os.path.isdir(self.place(number)), "a worker")
        return address

    def is_at_work(self, number: int) -> bool:
        """Whether a worker is at a task: that has a folder."""
        return any(folder.startswith("tmp") for _, folders, _ in os.walk(self.place(number))
                   for folder in folders)

    def end(self) -> None:
        for process in self.processes:
            with contextlib.suppress(ProcessLookupError):
                os.killpg(process.pid, signal.SIGKILL)
            process.wait()


def until(is_so, what: str) -> None:
    """Waits for something, up to a bound."""
    ends = time.monotonic() + WAIT
    while not is_so():
        if time.monotonic() > ends:
            raise TimeoutError(f"there was no {what} in {WAIT} s")
        time.sleep(LOOK)


@contextlib.contextmanager
def cluster(count: int = WORKERS, memory: str = "1GiB") -> Iterator[tuple[Cluster, str]]:
    with tempfile.TemporaryDirectory(prefix="dask-") as folder:
        made = Cluster(folder, count, memory)
        try:
            yield made, made.address()
        finally:
            made.end()


def key_text(dice: random.Random, at: int) -> str:
    """A member for a key, in one of the ways in which it may be written, or none."""
    key = int(1_000 * dice.random() ** 3)
    ways = (f'"key":"k{key}",', f'"key":"\\u006b{key}",', f'"key":"x","key":"k{key}",', "",
            '"key":"",', f'"key":{key},', f'"key":"{"long" * 50}{key % 7}",')
    return ways[0] if at % 4 else dice.choice(ways)


def lines_of(count: int, seed: int) -> Iterator[str]:
    """Lines with times, of which some in a thousand are stale reads, mostly of few clients."""
    dice, version = random.Random(seed), 100
    for at in range(count):
        version += dice.randrange(3)
        call = f'"commit":{version}' if at % 3 == 0 else f'"read":{version - 40 * (at % 97 == 1)}'
        note = ',"note":{"line":7}' * (at % 5 == 0)
        client, ended = int(64 * dice.random() ** 3), 10 * at + dice.randrange(30)
        yield (f'{{"client":"c{client}",{key_text(dice, at)}{call},"began":{10 * at},'
               f'"ended":{ended}{note}}}')


def write_log(folder: str) -> tuple[list[str], bytes]:
    """Files of a log, and all of it as one: with both ends of lines, none, and a long line."""
    lines = list(lines_of(LINES, 3))
    lines[LINES // 2] = lines[LINES // 2][:-1] + ',"long":"' + "x" * 1_040_000 + '"}'
    files, whole, step = [], [], LINES // FILES
    for number in range(FILES):
        end = "\r\n" if number % 4 == 1 else "\n"
        text = "".join(line + end for line in lines[number * step : (number + 1) * step])
        text = text if number % 4 else text.removesuffix("\n")
        files.append(f"{folder}/{number:02}.jsonl")
        with open(files[-1], "w", encoding="utf-8", newline="") as to:
            to.write(text)
        whole.append(text if text.endswith("\n") else text + "\n")
    return files, "".join(whole).encode()


def told(address: str, files: list[str], *words: str) -> Ran:
    """What the tool makes of a log on a cluster."""
    asked = ["--scheduler", address, "--program", PROGRAM, "--key", "key", "--block", str(BLOCK)]
    return run([PYTHON, TOOL, *files, *asked, *words], seconds=MANY_SECONDS)


def fault_of_told(ran: Ran, wanted: Ran) -> Optional[str]:
    """How what was told differs from one audit, but for which of totals that tie come first."""
    fault = fault_of(ran, wanted._replace(out=None))
    if fault:
        return fault
    (told_first, groups), (wanted_first, wanted_groups) = parted(ran.out), parted(wanted.out)
    if told_first != wanted_first:
        return f"it differs: {difference(told_first, wanted_first)}"
    return None if groups == wanted_groups else f"groups differ: {groups} for {wanted_groups}"


def parted(out: bytes) -> tuple[bytes, list[tuple]]:
    """What is told but of groups; of these the counts, and those that are above the least."""
    lines = out.splitlines(keepends=True)
    rows = [json.loads(it) for it in lines if it.startswith((b'{"client":', b'{"members":'))]
    kinds: dict[tuple, list] = {}
    for row in rows:
        kinds.setdefault(("client" in row, *row.get("members", ())), []).append(row)
    first = b"".join(lines[: len(lines) - len(rows)])
    return first, [
        (kind, [it["faults"] for it in some],
         sorted(map(json.dumps, (it for it in some if it["faults"] > some[-1]["faults"]))))
        for kind, some in kinds.items()
    ]


@contextlib.contextmanager
def kills(made: Cluster, number: int) -> Iterator[list[int]]:
    """Meanwhile ends a worker, as soon as it is at a task, and starts another; gives which."""
    killed: list[int] = []
    is_over = threading.Event()

    def kill() -> None:
        until(lambda: made.is_at_work(number) or is_over.is_set(), "task of a worker")
        if not is_over.is_set():
            os.killpg(made.processes[1 + number].pid, signal.SIGKILL)
            killed.append(number)
            made.worker(made.count)

    thread = threading.Thread(target=kill)
    thread.start()
    try:
        yield killed
    finally:
        is_over.set()
        thread.join()


def written(folder: str, name: str, lines: bytes) -> str:
    with open(f"{folder}/{name}", "wb") as to:
        to.write(lines)
    return f"{folder}/{name}"


def other_logs(folder: str) -> Iterator[tuple[str, list[str], bytes]]:
    """Logs that are refused, some by two lines, and one without faults: as files and as a whole."""
    many = b"".join(f"{line}\n".encode() for line in lines_of(60_000, 5))
    lines = many.splitlines(keepends=True)
    ninth = sum(1 for _ in many[: 8 * BLOCK + BLOCK // 2].splitlines())
    bad = [*lines[:ninth], b"{\n", *lines[ninth:], b'{"read":1}\n']
    text = b"".join(bad)
    yield "in the ninth block", [written(folder, "ninth", text)], text
    for name, first, second in (
        ("times from a later file on", UNTIMED * 3, TIMED * 3),
        ("no times from a later file on, and no JSON behind", TIMED * 3, UNTIMED + b"{\n"),
        ("no client, and no times, behind times", TIMED, b'{"read":1}\n'),
        ("a learn", UNTIMED, b'{"client":"a","learn":"a"}\n'),
    ):
        files = [written(folder, f"{at}", it) for at, it in enumerate((first, second))]
        yield name, files, first + second
    yield "an empty log", [written(folder, "empty", b"")], b""
    sound = "".join(f'{{"commit":1,"key":{at},"began":1,"ended":2}}\n' for at in range(60)).encode()
    yield "no fault", [written(folder, "sound", sound)], sound


# What others log in a run of the tool.
LOGS_BESIDE = f"""
import logging, runpy
runpy.run_path({TOOL!r})["quiet"]()
for name in ("asyncio", "distributed.client", "distributed.core"):
    logging.getLogger(name).error("Future exception was never retrieved")
logging.getLogger("distributed.scheduler").error("it fails")
"""


def fault_of_logs() -> Optional[str]:
    """What is wrong with what is left of what others say on standard error."""
    path = {**os.environ, "PYTHONPATH": os.path.dirname(TOOL)}
    ran = run([PYTHON, "-B", "-c", LOGS_BESIDE], env=path)
    is_so = b"it fails" in ran.err and b"retrieved" not in ran.err
    return None if is_so else f"{ran}"


# Whether a log of 40 KB has few blocks where these may have 40 pieces, and how many lines it has.
BLOCKS = f"""
import argparse, dask, runpy, sys
tool = runpy.run_path({TOOL!r})
tool["blocks_of"].__globals__["MOST_PIECES"] = 40
asked = argparse.Namespace(logs=sys.argv[1:], block="1KiB", parts=8)
blocks = dask.compute(*tool["blocks_of"](asked))
print(1 < len(blocks) <= 5, sum(it.count(b"x\\n") for it in blocks))
"""


# Whether bytes in a file are the same where they are sent, and the files go with them.
STORED = f"""
import os, pickle, sys
sys.path.insert(0, {os.path.dirname(TOOL)!r})
import dask_tasks
here = dask_tasks.stored(b"abcdef")
there = pickle.loads(pickle.dumps(here))
print(there.part(2, 3), there.size, sys.getsizeof(there) >= 6)
files = [here.file, there.file]
print(sum(map(os.path.exists, files)), end=" ")
del here, there
print(sum(map(os.path.exists, files)))
"""


def fault_of_stored() -> Optional[str]:
    """What is wrong with bytes that a worker keeps in a file."""
    ran = run([PYTHON, "-B", "-c", STORED])
    return None if ran.out == b"b'cde' 6 True\n2 0\n" else f"{ran}"


def fault_of_blocks(folder: str) -> Optional[str]:
    """What is wrong with the blocks of a log of which there would be too many pieces."""
    path = {**os.environ, "PYTHONPATH": os.path.dirname(TOOL)}
    ran = run([PYTHON, "-B", "-c", BLOCKS, written(folder, "x", b"x\n" * 20_000)], env=path)
    return None if ran.out == b"True 20000\n" else f"{ran}"


def parts(_program: str) -> Case:
    """On a cluster the same is told as by one audit, whatever dies or is refused."""
    if run([PYTHON, "-c", "import distributed"]).status:
        print("(no python3-distributed here) ", end="")
        yield "without Dask", None
        return
    yield "what others say beside it", fault_of_logs()
    yield "bytes in a file of a worker", fault_of_stored()
    with tempfile.TemporaryDirectory(prefix="dask-log-") as folder, cluster() as (made, address):
        yield "blocks of many pieces", fault_of_blocks(folder)
        files, whole = write_log(folder)
        words = ["--margin", "5", "--show", "note,began"]
        wanted = run([PROGRAM, "--key", "key", "--json", *words], whole)
        ran = told(address, files, *words)
        yield f"{LINES} lines in {FILES} files", fault_of_told(ran, wanted)
        with kills(made, 0) as killed:
            ran = told(address, [f"{folder}/*.jsonl"], *words, "--parts", "5")
        fault = fault_of_told(ran, wanted)
        yield "where a worker is killed", fault if killed else "no worker was seen at a task"
        for name, some, text in other_logs(folder):
            wanted = run([PROGRAM, "--key", "key", "--json"], text)
            yield name, fault_of_told(told(address, some), wanted)
        lines = [f"{line}\n".encode() for line in lines_of(2_000, 7)]
        half = b"".join(TIMED if at % 2 else it for at, it in enumerate(lines))
        ran = told(address, [written(folder, "half", half)], "--parts", "7")
        said = b"as all of one key are in one\n"
        is_said = ran.err.count(b"audit_on_dask: part ") == ran.err.count(said) == 1
        yield "half of all lines without a key", None if is_said else f"it said {ran.err!r}"
