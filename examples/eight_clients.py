"""Eight clients of a system's servers on loopback: the log of their calls, and its audit.

Beside the README.md of each system a script says how its servers are started, and how a client of
them reads and commits. This runs them in a folder, logs each call that is answered, with its times,
and stops them, while a watch is given each call as it is logged; then it audits the log, and
compares both with what README.md says.
"""
import collections
import contextlib
import json
import multiprocessing
import os
import random
import shutil
import signal
import socket
import subprocess
import sys
import tempfile
import time

# (where the package is installed, there is no launcher)
LAUNCHER = os.path.realpath(f"{__file__}/../../fdb_audit")
AUDIT = os.environ.get("FDB_AUDIT") or (LAUNCHER if os.path.exists(LAUNCHER) else "fdb_audit")
SECONDS = float(os.environ.get("SECONDS") or 4)
ALL_RIGHT = bool(os.environ.get("RIGHT"))
CLIENTS, CALLS = "abcdefgh", ("read", "commit")
# The one that only reads, and not in the right way unless all do.
READER = CLIENTS[-1]
ENDING = [signal.SIGINT, signal.SIGTERM, signal.SIGHUP]
# So many seconds at most are waited for a program that may hang, since a machine may be busy.
LONG = 300


class Servers:
    """Servers in a folder; where the block ends they have stopped, whatever ended it."""

    def __init__(self, folder):
        self.folder, self.started = folder, {}
        self.is_ended = self.is_waiting = False

    def __enter__(self):
        for it in ENDING:
            signal.signal(it, self.end)
        return self

    def end(self, *_):
        """Notes an ending signal, which ends the script at once where that waits."""
        self.is_ended = True
        if self.is_waiting:
            sys.exit(1)

    @contextlib.contextmanager
    def waiting(self):
        """Around all that takes long. A signal ends the script here and nowhere else, so that none
        comes between the start of a program and the note of it, or while all are stopped."""
        self.is_waiting = True
        try:
            if self.is_ended:
                sys.exit(1)
            yield
        finally:
            self.is_waiting = False

    def sleep(self, seconds):
        with self.waiting():
            time.sleep(seconds)

    def write(self, path, text):
        os.makedirs(os.path.dirname(path), exist_ok=True)
        with open(path, "w") as out:
            out.write(text)

    def start(self, name, *words, user=None, ended_by=signal.SIGKILL, **how):
        """Starts one, as this user. It ends where this process does, even where that is killed."""
        own = ["--reuid", user, "--regid", user, "--init-groups"] if user else []
        words = ["setpriv", "--pdeathsig", "KILL", *own, *words]
        with open(f"{self.folder}/{name}.out", "wb") as out:
            how = {"stdin": subprocess.DEVNULL, "stdout": out, "stderr": out, **how}
            server = subprocess.Popen(words, start_new_session=True, cwd=self.folder, **how)
        self.started[name] = server, ended_by
        return server

    def run(self, name, *words, user=None):
        """Runs a program to its end."""
        server = self.start(name, *words, user=user)
        with self.waiting():
            server.wait()
        if server.returncode:
            self.tell(name)
        del self.started[name]

    def pause(self, name, after, seconds):
        """Lets one run for a while, and then stops it for so long."""
        server, _ = self.started[name]
        self.sleep(after)
        server.send_signal(signal.SIGSTOP)
        self.sleep(seconds)
        server.send_signal(signal.SIGCONT)

    def until(self, holds, what):
        """Waits until this holds, and gives what it gave."""
        late = time.monotonic() + LONG
        while time.monotonic() < late:
            with self.waiting(), contextlib.suppress(OSError, ValueError, LookupError, TypeError):
                given = holds()
                if given:
                    return given
            for name, (server, _) in self.started.items():
                if server.poll() is not None:
                    self.tell(name)
            self.sleep(0.05)
        sys.exit(f"it took too long until {what}")

    def tell(self, name):
        """Ends, since this one failed, with the last that it said."""
        with open(f"{self.folder}/{name}.out", errors="replace") as out:
            sys.exit(f"{name} failed:\n{''.join(out.readlines()[-5:])}")

    def __exit__(self, *_):
        for server, ended_by in self.started.values():
            if server.poll() is None:
                os.killpg(server.pid, signal.SIGCONT)
                os.killpg(server.pid, ended_by)
        for server, _ in self.started.values():
            try:
                server.wait(LONG)
            except subprocess.TimeoutExpired:
                os.killpg(server.pid, signal.SIGKILL)
                server.wait()


def needed(package, *files):
    """Ends with status 2 where one of these is not there."""
    for it in files:
        if not shutil.which(it) and not os.path.exists(it):
            print(f"there is no {it} here: apt-get install {package}", file=sys.stderr)
            sys.exit(2)


def free_ports(count):
    """Ports at which nobody listens, below those that the system gives to callers."""
    free = []
    while len(free) < count:
        port = random.randrange(20_000, 32_000)
        with contextlib.suppress(OSError), socket.socket() as it:
            it.bind(("127.0.0.1", port))
            free += [port] * (port not in free)
    return free


class Watch:
    """An audit that follows the calls while the clients run."""

    def __init__(self, servers):
        # Where it is not built yet, this builds it.
        with servers.waiting():
            subprocess.run([AUDIT, "--help"], stdout=subprocess.DEVNULL, check=True)
        reader, self.calls = os.pipe()
        self.said = f"{servers.folder}/told"
        with open(self.said, "w") as out:
            words = [AUDIT, "--follow", str(round(SECONDS * 1_000_000 / 8)), "--json"]
            self.started = subprocess.Popen(words, stdin=reader, stdout=out,
                                            stderr=subprocess.DEVNULL)
        os.close(reader)

    def told(self):
        """The objects that it has told."""
        with open(self.said) as said:
            return [json.loads(line) for line in said if line.endswith("\n")]

    def end(self):
        os.close(self.calls)
        self.started.wait(LONG)


def line_of(client, name, call):
    """Makes a call, and gives the line that is logged of it; None where it failed."""
    began = time.monotonic_ns() // 1000
    version = client.read() if call == "read" else client.commit()
    ended = -(-time.monotonic_ns() // 1000)
    if version is None:
        return None
    line = {"client": name, call: version, "began": began, "ended": ended}
    return json.dumps({**line, "node": client.node}) + "\n"


def run_client(client, name, log, calls, end, pause):
    """Reads, or reads and commits, and logs the calls that are answered, to a watch too."""
    signal.signal(signal.SIGINT, signal.SIG_IGN)
    dice = random.Random(name)
    with open(log, "w") as out:
        while time.monotonic() < end:
            line = line_of(client, name, "read" if name == READER else dice.choice(CALLS))
            if line is None:
                # A call that failed has no version, and is left out.
                time.sleep(0.05)
                continue
            out.write(line)
            # (so short a line is written as one)
            os.write(calls, line.encode())
            time.sleep(pause)


@contextlib.contextmanager
def clients_of(system, logs, calls, end, pause=0):
    """The clients, side by side, each a process of its own; where the block ends none is left."""
    clients = [system.client(name, ALL_RIGHT or name != READER) for name in CLIENTS]
    run = multiprocessing.get_context("fork").Process
    running = [run(target=run_client, args=(*it, calls, end, pause))
               for it in zip(clients, CLIENTS, logs)]
    try:
        for it in running:
            it.start()
        yield running
    finally:
        for it in running:
            if it.pid:
                it.kill()


def run_clients(system, servers):
    """Runs them, and gives the log of all, how many faults the watch had told when they ended, and
    all that it told."""
    logs = [f"{servers.folder}/{name}.jsonl" for name in CLIENTS]
    watch = Watch(servers)
    end = time.monotonic() + SECONDS
    try:
        with clients_of(system, logs, watch.calls, end) as running:
            system.meanwhile(end)
            servers.sleep(max(0, end - time.monotonic()))
            soon = len(watch.told())
            with servers.waiting():
                for it in running:
                    it.join()
    finally:
        watch.end()
    if any(it.exitcode for it in running):
        sys.exit("a client failed")
    with open(f"{servers.folder}/log.jsonl", "w") as out:
        for it in logs:
            with open(it) as log:
                shutil.copyfileobj(log, out)
    return out.name, soon, watch.told()


def place_of(fault):
    """A fault by the call at which it stands; the watch read the lines in another order."""
    at = fault["at"]
    return fault["fault"], at["client"], at["began"]


def is_as_said(log, soon, told):
    """Audits a log, prints what comes of it and of a watch, and gives if README.md says that."""
    with open(log) as it:
        lines = [json.loads(line) for line in it]
    reads = collections.Counter(it["client"] for it in lines if "read" in it)
    print(f"logged: {len(lines)} calls, {sum(reads.values())} of them reads", flush=True)
    ran = subprocess.run([AUDIT, log, "--all"], stdout=subprocess.PIPE)
    if ran.returncode not in (0, 4):
        return False
    sentences = ran.stdout.decode().splitlines()
    print(*[it for it in sentences if " total " not in it][:2], sep="\n")
    with open(os.path.join(os.path.dirname(log), "said"), "w+") as said:
        subprocess.run([AUDIT, log, "--json"], stdout=said, stderr=subprocess.DEVNULL)
        said.seek(0)
        faults = [it for it in map(json.loads, said) if "fault" in it]
    stale = collections.Counter(it["at"]["client"] for it in faults if it["fault"] == "Order")
    by, of = stale.pop(READER, 0), reads.pop(READER, 0)
    others = f"{sum(stale.values())} of {sum(reads.values())} by the others"
    print(f"stale reads: {by} of {of} by client {READER}, {others}")
    watched = [it for it in told if "fault" in it and "at" in it]
    print(f"told while they ran: {soon} of {len(watched)}")
    early = sum(it["total"]["early"] for it in told if "total" in it)
    places, all = ({place_of(it) for it in its} for its in (watched, faults))
    # What comes later than the watch was told may not be judged.
    is_watched = places <= all and (early or places == all)
    is_right = is_watched and len(faults) == by and not (by and ALL_RIGHT)
    compared = 0 < of and 0 < sum(reads.values()) < len(lines) - of
    is_enough = compared and (by or ALL_RIGHT) and (soon or by < 10)
    if is_right and not is_enough:
        print("too little came in time: the machine may be busy, or SECONDS few", file=sys.stderr)
    return is_right and is_enough


@contextlib.contextmanager
def folder_of(about):
    """The folder that is named, which is made and kept, or one that goes."""
    if len(sys.argv) > 2 or sys.argv[1:2] and sys.argv[1].startswith("-"):
        sys.exit(about)
    kept = sys.argv[1:]
    try:
        folder = os.path.abspath(kept[0]) if kept else tempfile.mkdtemp()
        if kept:
            os.makedirs(folder)
    except OSError as error:
        sys.exit(str(error))
    try:
        yield folder
    finally:
        if not kept:
            shutil.rmtree(folder, ignore_errors=True)


def main(start, about):
    """Runs an example."""
    with folder_of(about) as folder:
        with Servers(folder) as servers:
            system = start(servers)
            way = system.RIGHT if ALL_RIGHT else system.WRONG
            print(f"{folder}: eight clients run for {SECONDS:g} s; {way}", flush=True)
            run = run_clients(system, servers)
        with servers.waiting():
            sys.exit(0 if is_as_said(*run) else 1)
