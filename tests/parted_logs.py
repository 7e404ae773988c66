"""The commands of examples/README.md by which the parts of a log are judged apart, key by key."""
import collections
import glob
import os
import random
import re
import shutil
import tempfile

from audit_logs import LOGS, PROGRAM
from audit_search import random_lines, text_of as log_of
from documents import BLOCK
from harness import read, run, text_of

COMMAND = next(it for _, it in BLOCK.findall(text_of("examples/README.md")) if "parallel" in it)
# Counts.
COUNT = re.compile(rb"(\w+) (\d+)")


def random_log(dice, count=400):
    """Lines of several random logs with times, of some keys and without."""
    drawn = (random_lines(dice) for _ in range(count))
    return log_of([line for lines in drawn if "began" in lines[0] for line in lines])


def told(said):
    """The faults, each with its reason, by the numbers of their lines; and the counts, added up."""
    faults, counts = collections.Counter(), collections.Counter()
    for line in said.splitlines():
        if line.startswith(b"audit fault: "):
            faults[line] += 1
        else:
            counts.update({word: int(count) for word, count in COUNT.findall(line)})
    return faults, counts


def told_of_parts(folder):
    """The same of all parts."""
    faults, counts = collections.Counter(), collections.Counter()
    for part in glob.glob(f"{folder}/parts/*.jsonl"):
        for whole, its in zip((faults, counts), told(read(f"{part}.said"))):
            whole.update(its)
    return faults, counts


def fault_of_parts(folder, log):
    """Why the parts of a log do not say what one process says of it, or None."""
    with open(f"{folder}/log.jsonl", "wb") as it:
        it.write(log)
    os.symlink(PROGRAM, f"{folder}/fdb_audit")
    ran = run(["bash", "-c", COMMAND], cwd=folder)
    found = told_of_parts(folder)
    wanted = told(run([PROGRAM, "--key", "key", "--all"], log).out)
    return None if found == wanted and wanted[0] else f"{found} for {wanted}; {ran.err[-300:]}"


def parted(_program):
    """The parts of a log have the faults that one process finds, and their counts add up."""
    # (another program of this name knows no --version)
    if not shutil.which("parallel") or b"GNU" not in run(["parallel", "--version"]).out:
        print("(no GNU parallel here) ", end="")
        yield "without GNU parallel", None
        return
    logs = {name: read(f"{LOGS}/{name}.jsonl") for name in ("keys", "jepsen")}
    for name, log in {**logs, "a random log": random_log(random.Random(7))}.items():
        with tempfile.TemporaryDirectory() as folder:
            yield name, fault_of_parts(folder, log)
