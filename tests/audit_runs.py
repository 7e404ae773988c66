"""Runs of fdb_replay, turned into lines: fdb_audit passes them, and finds a lowered read."""
import json
import os

from audit_logs import PROGRAM
from audit_right import why_wrong
from harness import EXAMPLES, read, run


def shown(do, rest):
    """The kind and version of a reply, if it has one; else nothing."""
    if do == "grv" and rest[:2] == ["refused", "Locked"]:
        return "read", int(rest[2])
    if rest[0] == "refused" or (do in ("ask", "reask") and rest[-1] == "kept"):
        return None
    if do in ("ask", "reask"):
        return "ask", int(rest[3])
    return {"grv": "read", "report": "report"}[do], int(rest[0])


def lines_of_run(text, start):
    """The lines of a run, from its replies: what is told in a round is learnt when it is over.

    The first commit version is that with which all begins, so who draws or reports it changes
    nothing, and has no line.
    """
    lines, told, now = [], [], None
    for round_, client, _place, do, *rest in map(str.split, text.splitlines()):
        if round_ in ("audit", "history"):
            break
        if round_ != now:
            lines, told, now = learnt(lines, told), [], round_
        if do == "tell" and rest[0] != "refused":
            told.append((rest[0], client))
        elif do != "tell" and shown(do, rest):
            kind, version = shown(do, rest)
            if kind == "read" or version != start:
                lines.append({"client": client, kind: version})
    return lines


def learnt(lines, told):
    """The lines, and what was told; who has no line has nothing to tell."""
    for client, teller in told:
        if any(line["client"] == teller for line in lines):
            lines = [*lines, {"client": client, "learn": teller}]
    return lines


def known(lines, place):
    """The greatest version that was shown to the client of a line before it, or 0."""
    seen = {}
    for line in lines[:place]:
        own = seen.setdefault(line["client"], 0)
        learn = seen.get(line.get("learn"), 0)
        seen[line["client"]] = max(own, learn, line.get("read", 0), line.get("report", 0))
    return seen.get(lines[place]["client"], 0)


def lowered(lines):
    """Yields the lines with one read below what its client knew, and the number of that line."""
    for place, line in enumerate(lines):
        if "read" in line and known(lines, place):
            below = {**line, "read": known(lines, place) - 1}
            yield place + 1, [*lines[:place], below, *lines[place + 1:]]


def bytes_of(lines):
    return "".join(f"{json.dumps(line)}\n" for line in lines).encode()


def runs_as_lines(_program):
    """The run of each example passes, and with one read lowered it is found at its line."""
    for name in sorted(os.listdir(EXAMPLES)):
        if not name.endswith(".out"):
            continue
        script = json.loads(read(f"{EXAMPLES}/{name[:-4]}.json"))
        words = ["--complete", str(script["recovery"]), "--all"]
        lines = lines_of_run(read(f"{EXAMPLES}/{name}").decode(), script["recovery"])
        ran = run([PROGRAM, *words], bytes_of(lines))
        passed = ran.status == 0 and ran.out.startswith(b"audit ok")
        yield name, None if passed else f"its run does not pass: {ran.out!r}"
        for number, changed in lowered(lines):
            given = bytes_of(changed)
            ran = run([PROGRAM, *words], given)
            fault = why_wrong(given, words, ran)
            if not fault and f"audit fault: Order {number}: ".encode() not in ran.out:
                fault = f"line {number} is not found: {ran.out!r}"
            yield f"{name}, line {number} lowered", fault
