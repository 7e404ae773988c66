"""What .ci/run leaves in out/gate, in a folder of its own with stand-ins for what it starts."""
import os
import shutil
import tempfile

import gate_record
from gate_record import FILES
from harness import ROOT, files_below, read, run
from released import OF_GIT, git, here

OWN = (".ci/run", ".gitignore", "tests/gate_record.py", "tests/harness.py")
KIT = "a-kit logic 0123456789abcdef"
CRATES = "# Two crates.\nlow: thiserror\nhigh staticlib: low\n"
OK = "ok; handles allowed: none; every proof and must-fail edit was done in this run"
# What rt ci says of two crates, one of which has tests, and where both are kept.
SAID = f"""\
== low
fn low::up: proved
logic=proved functions=12 sum=0123456789abcdef native=nat
rt: low proved
rt: low: trying its must-fail edits (1)
== high: its tests
logic=proved tests=2 functions=40 sum=0123456789abcdef
rt: high: its tests are proved
== high
fn high::up: proved
logic=proved functions=3 may-wait=1 sum=0123456789abcdef
rt: high proved
rt: {OK}
2 passed, 0 failed
"""
KEPT = f"""\
rt: low is kept: an earlier run on this machine proved the same files over the same libraries
rt: high is kept: an earlier run on this machine proved the same files over the same libraries
rt: {OK}
2 passed, 0 failed
"""
STAND_INS = {
    "rt": f"""case $1 in version) echo "{KIT}" ;; ci) cat "$ROOM/said" ;; esac""",
    "tests/run": """
case $1 in
--unbuilt) echo "1 passed, 0 failed" ;;
--built) [ ! -e "$ROOM/changes" ] || echo more > new; echo "7 passed, ${FAILED-0} failed"
    exit "${FAILED-0}" ;;
esac""",
    "tests/refused_edits.py": "",
    "tools/bindings": "",
}


def write(path, text):
    os.makedirs(os.path.dirname(path), exist_ok=True)
    with open(path, "w", encoding="ascii") as it:
        it.write(text)


def built(room):
    """A repository whose gate has nothing to do, and what it is said to have built."""
    top = f"{room}/top"
    for file in (*OWN, *files_below("tools", ".py")):
        os.makedirs(os.path.dirname(f"{top}/{file}"), exist_ok=True)
        shutil.copy(f"{ROOT}/{file}", f"{top}/{file}")
    for file, text in STAND_INS.items():
        path = f"{room}/{file}" if file == "rt" else f"{top}/{file}"
        write(path, text if file.endswith(".py") else f"#!/bin/sh\n{text}\n")
        os.chmod(path, 0o755)
    for file in FILES:
        write(f"{top}/{file}", file)
    for file, text in (("crates.txt", CRATES), ("crates/low/src/lib.rt", "pub fn up() {}\n")):
        write(f"{top}/{file}", text)
    write(f"{room}/said", SAID)
    for words in (["init", "--quiet"], ["add", "--all"], ["commit", "--quiet", "-mall"]):
        git(top, *words)
    return top


def left(_program):
    """A green gate of a commit leaves a record, and no other one does."""
    if not here("git"):
        yield "no git", None
        return
    with tempfile.TemporaryDirectory() as room:
        top = built(room)
        record = f"{top}/out/gate"
        commit = git(top, "rev-parse", "HEAD").out.decode().strip()

        def wanted(commit, low, high):
            ended, counts = [OK, "7 passed, 0 failed"], {"low": low, "high": high}
            return gate_record.record(commit, KIT, ended, counts, top)

        def gate(**env):
            env = {**os.environ, **OF_GIT, "ROOM": room, **env}
            env["PATH"] = f"{room}:{env['PATH']}"
            ran = run([f"{top}/.ci/run"], env=env)
            return ran, read(record).decode() if os.path.exists(record) else None

        ran, text = gate()
        is_so = text == wanted(commit, 12, 3) and ran.status == 0
        yield "a green gate", None if is_so else f"{ran} left {text}"
        last = ran.out.splitlines()[-1:]
        yield "its last line", None if last == [b"7 passed, 0 failed"] else f"{last}"
        write(f"{room}/said", KEPT)
        ran, text = gate()
        is_so = text == wanted(commit, 12, 3)
        yield "a gate that has kept all", None if is_so else f"{ran} left {text}"
        ran, text = gate(FAILED="1")
        yield "a red gate", None if text is None and ran.status == 1 else f"{ran} left {text}"
        write(f"{top}/crates/low/src/lib.rt", "pub fn down() {}\n")
        git(top, "commit", "--quiet", "-amother")
        commit = git(top, "rev-parse", "HEAD").out.decode().strip()
        ran, text = gate()
        is_so = text == wanted(commit, "kept", "kept")
        yield "what was kept of other files", None if is_so else f"{ran} left {text}"
        write(f"{room}/changes", "")
        ran, text = gate()
        yield "a file that comes meanwhile", f"{ran} left {text}" if text or ran.status else None
        os.remove(f"{room}/changes")
        ran, text = gate()
        is_told = b"out/gate will not be left" in ran.err and ran.status == 0
        yield "a file that came before", None if is_told and text is None else f"{ran} left {text}"
