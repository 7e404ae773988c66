"""The launchers, in a folder of its own with a stand-in for rt and for the programs."""
import contextlib
import os
import pty
import re
import shutil
import subprocess
import tempfile

from harness import ROOT, SECONDS, Ran, fault_of, processor_time, read, run

TOOLS = "bash sh cat cp mv mkdir mktemp rm sleep timeout find date readlink flock touch sed".split()
NOT_BUILT = 70
# The processor time of a launch without a build, some forty times what it takes.
QUICK = 0.5

CRATES = """# lowest first: NAME: lower ones
low: thiserror
other: low
kept: low
middle: low
fdb_replay_cli: kept middle
fdb_audit: kept other
fdb_audit_cli: fdb_audit
bench: low
"""
# Locks the crate's folder, as rt does, and makes the program in its crate. It fails in the crate
# that the file `fails` names.
RT = """#!/bin/sh
# Waits until a command succeeds, for a hundred seconds or so.
wait_until() {
    tries=0
    until "$@" || [ "$tries" -ge 1000 ]; do sleep 0.1; tries=$((tries + 1)); done
}
# On a terminal it goes on as that is shown what it said.
is_shown() { [ -z "$ON_TERMINAL" ] || [ -e "$ROOM/shown$1" ]; }
are_aside() { [ "$(cat "$ROOM/aside")" = "$(printf 'low lib\nkept lib\nother lib')" ]; }
exec 9< .
flock 9
name=${PWD##*/}
case $PWD in
"$ROOM/top/"*) echo "$name $1" >> "$ROOM/calls" ;;
*) echo "$name $1" >> "$ROOM/aside"; exit ;;
esac
cat > "$ROOM/given"
if [ "$name" != kept ]; then echo "rt: proving $name"; fi
if [ -e "$ROOM/fails" ] && [ "$(cat "$ROOM/fails")" = "$name" ]; then exit 1; fi
case "$name $1" in
"low lib")
    echo "so far: 0 of 75 functions checked; the verdict comes last" >&2
    wait_until is_shown 0
    printf "so far: 54 of 75 func"
    wait_until is_shown 1
    echo "tions checked"
    wait_until is_shown 2
    ;;
"fdb_audit lib") wait_until are_aside ;;
*"_cli run")
    echo "rt: running out/$name" >&2
    sleep 0.2
    echo built >> "$ROOM/builds"
    mkdir -p out
    cp "$ROOM/stand_in" out/new
    mv out/new "out/$name"
    ;;
esac
"""
PROGRAM = """#!/bin/sh
pwd
for argument in "$@"; do echo "argument $argument"; done
cat
echo "fdb_replay: said" >&2
exit ${STATUS-0}
"""
SAID = b"fdb_replay: said\n"
# What a build says where standard error is no terminal: a line for each crate that is needed.
TOLD = rb"""fdb_replay: proving and building the program first, .*
fdb_replay: \[1/4\] low: 75 functions, \d+ s
fdb_replay: \[2/4\] kept: kept
fdb_replay: \[3/4\] middle: \d+ s
fdb_replay: \[4/4\] fdb_replay_cli: \d+ s
fdb_replay: built after \d+ seconds
fdb_replay: said
"""
# What a terminal is shown of the first crate, in turn, and how the next line begins.
SHOWN = [
    rb"\d+ s so far",
    *[rb"0 of 75 functions, \d+ s so far"] * 2,
    rb"54 of 75 functions, \d+ s so far",
    rb"75 functions, \d+ s\r\n",
]
# What is to be seen there, and how often, before rt goes on each time.
SEEN = ((b"0 of 75", 1), (b"0 of 75", 3), (b"54 of 75", 1))
RENEWED = (
    b"(?s)"
    + b".*".join(rb"\r\x1b\[Kfdb_replay: \[1/4\] low: " + it for it in SHOWN)
    + rb"\r\x1b\[Kfdb_replay: \[2/4\] kept: \d+ s so far"
)
LOGGED = """rt: proving low
so far: 0 of 75 functions checked; the verdict comes last
so far: 54 of 75 functions checked
rt: proving middle
rt: running out/fdb_replay_cli
"""


class Room:
    """A repository with a launcher, one source, and a PATH that has the stand-in for rt."""

    def __init__(self, folder, name="fdb_replay"):
        self.top, self.bin, self.away = f"{folder}/top", f"{folder}/bin", f"{folder}/away"
        self.folder, self.name, self.crate = folder, name, f"{self.top}/crates/{name}_cli"
        for name_of in ("low", "other", "kept", "middle", "fdb_audit", f"{name}_cli/src"):
            os.makedirs(f"{self.top}/crates/{name_of}")
        for it in (self.bin, self.away, f"{folder}/tmp", f"{self.top}/tools"):
            os.mkdir(it)
        for file in (name, "tools/launcher"):
            shutil.copy(f"{ROOT}/{file}", f"{self.top}/{file}")
        for file, text in (
            ("top/crates.txt", CRATES), ("top/HANDLES", "\n"), ("bin/rt", RT),
            ("stand_in", PROGRAM),
            (f"top/crates/{name}_cli/stdin", "\n"), (f"top/crates/{name}_cli/src/main.rt", "\n"),
        ):
            self.write(file, text)
        for tool in TOOLS:
            os.symlink(shutil.which(tool), f"{self.bin}/{tool}")
        os.symlink(f"{self.top}/{name}", f"{folder}/link")
        self.env = {"PATH": self.bin, "ROOM": folder, "TMPDIR": f"{folder}/tmp"}

    def write(self, file, text):
        file = os.path.join(self.folder, file)
        os.makedirs(os.path.dirname(file), exist_ok=True)
        with open(file, "w", encoding="utf-8") as it:
            it.write(text)
        os.chmod(file, 0o755)

    def launch(self, *arguments, given=b"bytes\n", by=None, **env):
        words = [by or f"{self.top}/{self.name}", *arguments]
        return run(words, given, cwd=self.away, env={**self.env, **env})

    def launch_on_terminal(self):
        """Launches with a terminal as standard error: how that ended, and what it was shown."""
        ours, theirs = pty.openpty()
        how = {"cwd": self.away, "env": {**self.env, "TERM": "xterm", "ON_TERMINAL": "1"}}
        pipes = {"stdin": subprocess.DEVNULL, "stdout": subprocess.PIPE, "stderr": theirs}
        with subprocess.Popen([f"{self.top}/fdb_replay"], **how, **pipes) as started:
            os.close(theirs)
            shown = self.seen_on_terminal(ours)
            out, _ = started.communicate(timeout=SECONDS)
        return Ran(started.returncode, out, b""), shown

    def seen_on_terminal(self, ours):
        """What a terminal is shown; where that is to be, rt is let go on."""
        text = b""
        # (it ends with an error in place of no bytes)
        with os.fdopen(ours, "rb", buffering=0) as it, contextlib.suppress(OSError):
            while True:
                text += it.read(65_536)
                seen = [at for at, (part, times) in enumerate(SEEN) if text.count(part) >= times]
                for at in seen:
                    self.write(f"shown{at}", "")
        return text

    def text(self, file):
        """What a file of the room has, or nothing where it is not there."""
        file = f"{self.folder}/{file}"
        return read(file).decode() if os.path.exists(file) else ""

    def builds(self):
        return self.text("builds").count("\n")

    def fault(self, ran, wanted, builds):
        """Returns what is wrong with a launch, after which there were this many builds."""
        found = self.builds()
        return fault_of(ran, wanted) or differing(found, builds)

    def wanted(self, *arguments, given=b"bytes\n", status=0, err=SAID):
        lines = [self.away, *(f"argument {it}" for it in arguments)]
        return Ran(status, "".join(f"{it}\n" for it in lines).encode() + given, err)


def differing(found, wanted):
    return None if found == wanted else f"{found!r} in place of {wanted!r}"


FAILED = Ran(NOT_BUILT, b"", None)


def launches(_program):
    """The launcher builds where it must, passes all on, and says so on standard error alone."""
    for group, name in ((in_turn, "fdb_replay"), (told, "fdb_replay"), (of_the_audit, "fdb_audit")):
        with tempfile.TemporaryDirectory(prefix="launch-") as folder:
            yield from group(Room(os.path.realpath(folder), name))


def in_turn(room):
    """Launches, edits and more launches in one room."""
    room.write("fails", "fdb_replay_cli")
    yield "a build that fails", room.fault(room.launch(), FAILED, 0)
    os.remove(f"{room.folder}/fails")
    ran = room.launch()
    yield "the first launch builds", room.fault(ran, room.wanted(err=None), 1)
    yield "what it says meanwhile", None if re.fullmatch(TOLD, ran.err) else repr(ran.err)
    yield "what rt reads is not the script", differing("bytes" in room.text("given"), False)
    os.symlink("../link", f"{room.away}/link")
    for arguments, how in (
        ([], {}), (["a file.json", "--proxies", "4", "", "*"], {}), ([], {"STATUS": "5"}),
        ([], {"given": b""}), (["x"], {"by": f"{room.folder}/link"}),
        (["x"], {"by": "../top/fdb_replay"}), (["x"], {"by": "./link"}),
    ):
        ran, given = room.launch(*arguments, **how), how.get("given", b"bytes\n")
        wanted = room.wanted(*arguments, given=given, status=int(how.get("STATUS", 0)))
        yield f"no other build, with {arguments} and {how}", room.fault(ran, wanted, 1)
    _, spent = processor_time(room.launch, QUICK)
    yield "a launch without a build is quick", f"{spent:.3f} s" if spent > QUICK else None
    yield from after_edits(room)
    yield "four at once, nothing built", at_once(room)
    os.remove(f"{room.bin}/rt")
    builds = room.builds()
    yield "a built program needs no rt", room.fault(room.launch(), room.wanted(), builds)
    room.write("top/crates.txt", "edited again\n")
    yield "an old program is not run without rt", room.fault(room.launch(), FAILED, builds)


def after_edits(room):
    """An edit of what the program needs builds it once; one of anything else does not."""
    other = CRATES.replace("kept: low", "kept: low hex")
    last = other.replace("other: low", "other: low hex") + "more: other\n"
    for file, text, is_needed in (
        ("crates/fdb_replay_cli/src/main.rt", "edited\n", True),
        ("crates/fdb_replay_cli/specs/Lib.antt", "edited\n", True),
        ("crates/low/src/lib.rt", "edited\n", True),
        ("crates.txt", other, True),
        ("HANDLES", "edited\n", True),
        ("crates/fdb_replay_cli/out/kept.rt", "made\n", False),
        ("README.md", "edited\n", False),
        ("crates/other/src/lib.rt", "edited\n", False),
        ("crates.txt", last, False),
    ):
        room.write(f"top/{file}", text)
        builds = room.builds() + is_needed
        wanted = room.wanted(err=None if is_needed else SAID)
        yield f"an edit of {file}", room.fault(room.launch(), wanted, builds)
        yield f"once after {file}", room.fault(room.launch(), room.wanted(), builds)
    # The lines that were noted are not those of a program that rt built since.
    room.write("top/crates.txt", CRATES)
    shutil.copy(f"{room.folder}/stand_in", f"{room.crate}/out/fdb_replay_cli")
    builds = room.builds()
    yield "a program that rt built", room.fault(room.launch(), room.wanted(), builds)
    room.write("top/crates.txt", other)
    yield "other lines than its own", room.fault(room.launch(), room.wanted(err=None), builds + 1)


def at_once(room):
    """Several launches where nothing is built, of which one alone builds."""
    os.remove(f"{room.crate}/out/fdb_replay_cli")
    before = room.builds()
    pipes = {"stdin": subprocess.DEVNULL, "stdout": subprocess.PIPE, "stderr": subprocess.DEVNULL}
    words = [f"{room.top}/fdb_replay"]
    all_of_them = [subprocess.Popen(words, env=room.env, cwd=room.away, **pipes) for _ in range(4)]
    for started in all_of_them:
        out, _ = started.communicate(timeout=SECONDS)
        fault = fault_of(Ran(started.returncode, out, b""), room.wanted(given=b"", err=b""))
        if fault:
            return fault
    return differing(room.builds(), before + 1)


def of_the_audit(room):
    """The other program has its own crates, of which the launcher of the first knows nothing."""
    ran = room.launch("x")
    yield "the audit's first launch builds", room.fault(ran, room.wanted("x", err=None), 1)
    begun = b"fdb_audit: proving and building the program first"
    yield "the audit's own name", None if ran.err.startswith(begun) else repr(ran.err)
    yield "the audit's crates are proved in turn", differing(
        room.text("calls"), "low lib\nother lib\nkept lib\nfdb_audit lib\nfdb_audit_cli run\n"
    )
    others = "low lib\nkept lib\nother lib\n"
    yield "others meanwhile, in a copy", differing(room.text("aside"), others)
    room.write("top/crates/middle/lib.rt", "edited\n")
    ran = room.launch(by=f"{room.folder}/link")
    yield "the audit through a link", room.fault(ran, room.wanted(), 1)
    os.remove(f"{room.crate}/out/fdb_audit_cli")
    room.write("fails", "other")
    yield "an audit that fails", room.fault(room.launch(), FAILED, 1)
    yield "the copies are gone", ", ".join(os.listdir(f"{room.folder}/tmp")) or None


def told(room):
    """A terminal has a line for each crate, renewed in place; a failure names the log."""
    ran, shown = room.launch_on_terminal()
    yield "a launch on a terminal", room.fault(ran, room.wanted(given=b"", err=b""), 1)
    yield "what a terminal shows", None if re.search(RENEWED, shown) else repr(shown)
    yield "the crates are proved in turn", differing(
        room.text("calls"), "low lib\nkept lib\nmiddle lib\nfdb_replay_cli run\n"
    )
    log = "top/crates/fdb_replay_cli/out/build.log"
    yield "the log has what rt said", differing(room.text(log), LOGGED)
    os.remove(f"{room.crate}/out/fdb_replay_cli")
    room.write("fails", "middle")
    ran = room.launch()
    last = f"rt failed in crates/middle; what it said is in {room.folder}/{log}\n".encode()
    yield "a failed build", room.fault(ran, FAILED, 1)
    yield "it names the crate and the log", None if ran.err.endswith(last) else repr(ran.err)
    os.remove(f"{room.folder}/fails")
    shutil.rmtree(f"{room.crate}/out")
    room.write(f"{room.crate}/out", "in the way")
    yield "no folder for the log", room.fault(room.launch(), FAILED, 1)
