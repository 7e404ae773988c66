#!/usr/bin/env python3
"""Simulated clusters: lines as their clients would log them, with and without stale reads.

    tests/clusters.py [--seeds N] [PROGRAM]

A cluster has a register, commit proxies that commit in batches, clients that do several things at
once, and callers who log nothing. What each call gets is decided by one list of reports in the
order of time, so that no read is stale but those that are made so. As a tool it prints of each kind
of cluster in how many of N runs PROGRAM, or else the model, found a fault where no read is stale,
and what it found where three are.
"""
import argparse
import bisect
import os
import random
import sys
from typing import NamedTuple

sys.dont_write_bytecode = True


class Setting(NamedTuple):
    """What a cluster is like."""

    # Clients that log, and how many calls each makes, of which several at once.
    clients: int = 4
    calls: int = 100
    # Commits a second of callers who log nothing, and how many commits share a version at most.
    foreign: int = 0
    batch: int = 3
    # The part of the calls that is logged, how far clocks are apart at most in microseconds, and
    # the part of the commits that are reports of a version asked for, whose ends may not be known.
    sample: float = 1.0
    skew: int = 0
    unknown: float = 0.0
    # Whether the first half of the log is left out.
    midway: bool = False


KINDS = {
    "all calls of its clients": Setting(),
    "100 commits a second of others": Setting(foreign=100),
    "1,000 commits a second of others": Setting(foreign=1_000),
    "a sample of 50 %": Setting(sample=0.5),
    "a sample of 10 %": Setting(sample=0.1),
    "a sample of 1 %": Setting(sample=0.01),
    "clocks up to 1 ms apart": Setting(skew=1_000),
    "clocks up to 5 ms apart": Setting(skew=5_000),
    "ends that are not known": Setting(unknown=0.3),
    "a log that begins midway": Setting(midway=True),
    "all of this": Setting(foreign=100, sample=0.5, skew=1_000, unknown=0.3, midway=True),
}


def margin_of(setting):
    """The margin for a cluster: as far as its clocks are apart."""
    return setting.skew


# How long a call may take, and how far apart the calls of a client begin, in microseconds.
LONGEST, APART = 3_000, 2_000
# How many reads are made stale, and by how much: what was live so long before they began.
PLANTED, AGO = 3, 4_000


class Commit(NamedTuple):
    version: int
    drawn: int
    reported: int


def commits_of(dice, setting, end):
    """Batches of commits: each version is drawn above those before it, and reported later."""
    moments, now = [], 0
    while now < end:
        now += dice.randint(200, 1_500)
        moments.append(now)
    if setting.foreign:
        moments += [dice.randrange(end) for _ in range(end * setting.foreign // 1_000_000)]
    version, found = 1_000, []
    for drawn in sorted(moments):
        version += dice.randint(1, 900)
        found.append(Commit(version, drawn, drawn + dice.randint(50, 1_200)))
    return found


class Register:
    """The live committed version at each moment."""

    def __init__(self, start, commits):
        reports = sorted((it.reported, it.version) for it in commits)
        self.moments, self.versions = [it for it, _ in reports], [start]
        for _, version in reports:
            self.versions.append(max(self.versions[-1], version))

    def at(self, moment):
        """That of a moment: what was reported before it."""
        return self.versions[bisect.bisect_left(self.moments, moment)]


def logged(dice, setting, client, skew, kind, version, began, ended):
    """A line, by the client's own clock."""
    line = {"client": f"c{client}", kind: version, "began": began + skew, "ended": ended + skew}
    if kind == "report" and dice.random() < setting.unknown:
        line["ended"] = None
    return line


def skew_of(seed, setting, client):
    """By how much a client's clock is ahead."""
    return 1_000_000 + random.Random(f"skew {seed} {client}").randint(0, setting.skew)


def simulated(seed, setting=Setting()):
    """The lines of a run, in the order of their ends by each client's clock, and its register."""
    dice = random.Random(f"cluster {seed} {setting}")
    end = setting.calls * APART
    commits = commits_of(dice, setting, end)
    register, lines = Register(1_000, commits), []
    mine = {it.version: [] for it in dice.sample(commits, len(commits) // 2)}
    by_drawn = [it for it in commits if it.version in mine]
    for client in range(setting.clients):
        skew = skew_of(seed, setting, f"c{client}")
        for _ in range(setting.calls):
            began = dice.randrange(end)
            ended = began + dice.randint(1, LONGEST)
            if dice.random() < 0.5:
                moment = dice.randint(began, ended)
                lines.append(logged(dice, setting, client, skew, "read", register.at(moment),
                                    began, ended))
                continue
            commit = dice.choice(by_drawn)
            if len(mine[commit.version]) == setting.batch:
                continue
            asks = not mine[commit.version] and dice.random() < setting.unknown
            mine[commit.version].append("ask" if asks else "commit")
            if mine[commit.version] != ["ask"] and "ask" in mine[commit.version]:
                continue
            began = max(0, commit.drawn - dice.randint(0, 900))
            ended = commit.reported + dice.randint(1, 900)
            if not asks:
                lines.append(logged(dice, setting, client, skew, "commit", commit.version,
                                    began, ended))
                continue
            middle = (commit.drawn + commit.reported) // 2
            lines.append(logged(dice, setting, client, skew, "ask", commit.version, began, middle))
            lines.append(logged(dice, setting, client, skew, "report", commit.version,
                                middle, ended))
    lines.sort(key=lambda line: line["ended"] or line["began"])
    if setting.midway:
        lines = lines[len(lines) // 2:]
    return [it for it in lines if dice.random() < setting.sample], register


def with_stale_reads(seed, setting=Setting()):
    """The same lines, but that some reads got what was live some time before they began, and which
    lines those are."""
    lines, register = simulated(seed, setting)
    dice = random.Random(f"stale {seed}")
    stale = []
    for place in dice.sample(range(len(lines)), len(lines)):
        line = lines[place]
        if len(stale) == PLANTED or "read" not in line:
            continue
        before = register.at(line["began"] - skew_of(seed, setting, line["client"]) - AGO)
        if before < line["read"]:
            line["read"] = before
            stale.append(place)
    return lines, sorted(stale)


# ---- the tool


def judge_of(program):
    """What the first fault of some lines is, and at which lines a stale read was found."""
    from audit_model import options_of, judged
    from audit_search import text_of
    from harness import run

    def judge(lines, margin):
        words = ["--margin", str(margin), "--all"]
        given = text_of(lines)
        if program:
            out = run([program, *words], given, 600).out
        else:
            _status, out, _err = judged(given, options_of(words))
        found = [it.split(": ")[1].split() for it in out.decode().splitlines() if ": " in it]
        return out.startswith(b"audit ok"), {int(line) - 1 for kind, line in found
                                             if kind in ("Order", "Wrong")}

    return judge


def row(judge, setting, seeds):
    """Of a kind of cluster: its mean count of lines, false alarms, and what was found."""
    count = alarms = some = all_found = 0
    for seed in seeds:
        lines, _register = simulated(seed, setting)
        is_ok, _found = judge(lines, margin_of(setting))
        count, alarms = count + len(lines), alarms + (not is_ok)
        lines, stale = with_stale_reads(seed, setting)
        _is_ok, found = judge(lines, margin_of(setting))
        some += bool(found & set(stale))
        all_found += len(stale) == PLANTED and set(stale) <= found
    return count // len(seeds), alarms, some, all_found


def main():
    reader = argparse.ArgumentParser(description=__doc__.split("\n")[0])
    reader.add_argument("--seeds", type=int, default=200, help="runs of each kind")
    reader.add_argument("program", nargs="?", help="fdb_audit, or else the model")
    given = reader.parse_args()
    judge = judge_of(given.program and os.path.abspath(given.program))
    print("Cluster | Lines | False alarms | A stale read found | All three found")
    print("---|---|---|---|---")
    for kind, setting in KINDS.items():
        print(kind, *row(judge, setting, range(given.seeds)), sep=" | ", flush=True)


if __name__ == "__main__":
    main()
