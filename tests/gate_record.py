"""What a green gate leaves in out/gate, which tools/release makes PROVED of.

    python3 tests/gate_record.py                   the commit of a gate that begins now
    python3 tests/gate_record.py --note CI         notes in out/counts what rt ci printed to CI
    python3 tests/gate_record.py COMMIT CI RUN     leaves out/gate; tests/run printed to RUN

A line of it each has the commit, the kit, what rt ci and tests/run said at their ends, each crate
with how many of its functions are proved, and each built file of which packages are made, with its
sum. Of a crate that an earlier run on this machine proved, rt ci says no number: it is the one that
was noted of the same files in this checkout, or else the line says 'kept'. Nothing is left where
files are not as the commit has them.
"""
import hashlib
import os
import re
import shutil
import sys

sys.dont_write_bytecode = True

from harness import ROOT, files_below, read, run, text_of

sys.path.insert(0, f"{ROOT}/tools")
from release_package import ARCHIVES, BUILT, SHARED

RECORD, COUNTS = f"{ROOT}/out/gate", f"{ROOT}/out/counts"
FILES = (*BUILT.values(), *ARCHIVES, SHARED)
# What rt says of a crate that it has proved, and at its end.
PROVED = re.compile(r"^== (\w+)\n(?:(?!== ).*\n)*?logic=proved functions=(\d+) ", re.MULTILINE)
OK = re.compile(r"^rt: (ok; .*)$", re.MULTILINE)
# A crate, and those that it stands on.
LISTED = re.compile(r"^(\w+)[^:\n]*:(.*)$", re.MULTILINE)


def kit():
    return run(["rt", "version"]).out.decode().strip()


def sums():
    """A sum of what the proof of each crate stands on: its files, the crates below, and the kit."""
    made_by, found = kit(), {}
    for name, below in LISTED.findall(text_of("crates.txt")):
        own = [made_by, below, *(found.get(it) for it in below.split())]
        made = hashlib.sha256(repr(own).encode())
        for part in ("src", "specs", "proofs"):
            for path in files_below(f"crates/{name}/{part}", ".rt", ".antt"):
                made.update(repr([path, read(f"{ROOT}/{path}")]).encode())
        found[name] = made.hexdigest()
    return found


def noted():
    """How many functions were proved of each crate with a sum."""
    lines = read(COUNTS).decode().splitlines() if os.path.exists(COUNTS) else []
    return {(name, own): count for name, count, own in map(str.split, lines)}


def note(said):
    """Notes how many functions of each crate are proved, by what rt ci said."""
    found, own = noted(), sums()
    found |= {(name, own[name]): count for name, count in PROVED.findall(said)}
    os.makedirs(os.path.dirname(COUNTS), exist_ok=True)
    with open(COUNTS, "w", encoding="ascii") as it:
        it.writelines(f"{name} {count} {sum}\n" for (name, sum), count in found.items())


def record(commit, made_by, ended, counts, top=ROOT):
    """The text of a record, by the last lines of rt ci and tests/run."""
    lines = [f"commit {commit}", f"kit {made_by}", *(f"gate {it}" for it in ended)]
    lines += [f"proved {crate} {count}" for crate, count in counts.items()]
    lines += [f"built {hashlib.sha256(read(f'{top}/{it}')).hexdigest()} {it}" for it in FILES]
    return "".join(f"{it}\n" for it in lines)


def commit_of(top=ROOT):
    """The commit of a checkout whose files are as it has them, or ''."""
    if not shutil.which("git"):
        return ""
    changed = run(["git", "-C", top, "status", "--porcelain"])
    found = run(["git", "-C", top, "rev-parse", "HEAD"])
    is_known = changed.status == found.status == 0 and not changed.out
    return found.out.decode().strip() if is_known else ""


def main():
    words = sys.argv[1:]
    if not words:
        commit = commit_of()
        if not commit:
            print("gate: files are not as a commit has them, so that out/gate will not be left",
                  file=sys.stderr)
        print(commit)
        return
    said, *ran = (read(it).decode(errors="replace") for it in words[1:])
    if words[0] == "--note":
        note(said)
    elif words[0] and words[0] == commit_of():
        known = noted()
        counts = {name: known.get((name, own), "kept") for name, own in sums().items()}
        ended = [*OK.findall(said), ran[0].splitlines()[-1]]
        with open(RECORD, "w", encoding="utf-8") as it:
            it.write(record(words[0], kit(), ended, counts))


if __name__ == "__main__":
    main()
