"""The databases of examples/: each is audited where it is installed, and read in both ways."""
import contextlib
import glob
import os
import signal
import subprocess
import sys
import tempfile
import time

from audit_logs import PROGRAM
from harness import EXAMPLES, MANY_SECONDS, read, run

DATABASES = ["etcd", "zookeeper", "postgresql"]
# How an example ends where its README.md is right, or is not, or its servers are not installed.
AS_SAID, OTHERWISE, NOT_HERE = 0, 1, 2
# What it says where nothing is wrong, but too little came of it.
TOO_LITTLE = b"too little came in time"
# How long the clients run at each try: a busy machine may need a second or a third one.
TRIES = ("1.5", "5", "15", "45")
# So many seconds at most an ended program is there, on a busy machine.
ENDS = 60
# Two programs, a call behind which a signal comes each time, and how they are started.
SIGNALLED = """
import os, subprocess, sys
examples, folder, number, call, start = sys.argv[1:]
sys.path.insert(0, examples)
import eight_clients

def signalled(called):
    def both(*words, **how):
        given = called(*words, **how)
        os.kill(os.getpid(), int(number))
        return given
    return both

module = {"Popen": subprocess, "killpg": os}[call]
setattr(module, call, signalled(getattr(module, call)))
with eight_clients.Servers(folder) as servers:
    for it in "ab":
        getattr(servers, start)(it, "timeout", "60", "tail", "-f", f"{folder}/{it}.out")
    servers.until(lambda: call == "killpg", "a signal comes")
servers.sleep(0)
"""


def words_of(database):
    return [sys.executable, "-B", f"{EXAMPLES}/{database}/run"]


def settings(right, seconds):
    return {**os.environ, "FDB_AUDIT": PROGRAM, "SECONDS": seconds, "RIGHT": right}


def ran(database, right, tries=TRIES):
    """How an example ended. A busy machine may need further tries, but not for a verdict."""
    for seconds in tries:
        it = run(words_of(database), seconds=MANY_SECONDS, env=settings(right, seconds))
        is_judged = b"stale reads: " in it.out and TOO_LITTLE not in it.err
        if it.status in (AS_SAID, NOT_HERE) or is_judged:
            break
    return it


def left_in(folder):
    """The commands that still run in a folder, once none does or they have had time to end."""
    late, left = time.monotonic() + ENDS, [""]
    while left and time.monotonic() < late:
        time.sleep(0.05)
        left = []
        for file in glob.glob("/proc/[0-9]*/cmdline"):
            with contextlib.suppress(OSError):
                command = read(file)
                left += [command] * (folder.encode() in command)
    return left


def ended_midway(database, seconds, sent):
    """What an example said that a signal ended midway, and the commands that it left."""
    with tempfile.TemporaryDirectory() as top:
        # (PostgreSQL's user has to come through)
        os.chmod(top, 0o755)
        words, folder = words_of(database), f"{top}/folder"
        how = {"stdout": subprocess.PIPE, "stderr": subprocess.PIPE, "env": settings("", seconds)}
        with subprocess.Popen([*words, folder], **how) as it:
            begun = it.stdout.readline()
            it.send_signal(sent)
            _, err = it.communicate(timeout=MANY_SECONDS)
        return begun, err, left_in(folder)


def fault_midway(database, tries=TRIES, sent=signal.SIGTERM):
    """What is wrong with an example that a signal ended midway, or None."""
    for seconds in tries:
        begun, err, left = ended_midway(database, seconds, sent)
        if left or begun:
            return f"it left {left}" if left else None
    return f"it did not begin: {err[-300:]!r}"


def audited(_program):
    """One client's reads are stale and no others', or none; and a signal stops all servers."""
    for database in DATABASES:
        for right in ["", "1"]:
            it = ran(database, right)
            if it.status == NOT_HERE:
                print(f"(no {database} here) ", end="")
                yield f"without {database}", None
                break
            fault = f"status {it.status}; it said {it.out[-300:]!r} {it.err[-300:]!r}"
            yield f"{database} with RIGHT={right}", None if it.status == AS_SAID else fault
        else:
            yield f"{database}, ended midway", fault_midway(database)


def signalled(_program):
    """A signal between a program's start and the note of it, or while all stop, leaves none.

    What ends the programs of a script that was killed does nothing here, so that one would stay.
    """
    for number in (signal.SIGINT, signal.SIGTERM, signal.SIGHUP):
        for call, start in (("Popen", "start"), ("Popen", "run"), ("killpg", "start")):
            with tempfile.TemporaryDirectory() as folder:
                with open(f"{folder}/setpriv", "w", encoding="ascii") as file:
                    file.write('#!/bin/sh\nshift 2\nexec "$@"\n')
                os.chmod(file.name, 0o755)
                words = [sys.executable, "-B", "-c", SIGNALLED, EXAMPLES, folder, str(int(number))]
                env = {**os.environ, "PATH": f"{folder}:{os.environ['PATH']}"}
                it, left = run([*words, call, start], env=env), left_in(folder)
            is_so = it.status == OTHERWISE and not left
            yield f"{number.name} behind {call}, {start}", None if is_so else f"{it}; left: {left}"
