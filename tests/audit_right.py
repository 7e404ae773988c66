"""Whether what fdb_audit wrote of a log is right, where it may choose what it says.

Of several lines that let a version be known it names one, and of several orders that explain the
lines it writes one. So a sentence has to be one of those that are true, and an order is looked at
by the definition: register and sequencer allow it, each line has its acts in it, and what comes
before comes before.
"""
import json
import re

from audit_lines import lines_of
from audit_model import DRAWING, SHOWING, Log, judged, options_of
from harness import Ran, fault_of

TURN = re.compile(r"history \d+ (ask|report|read) (\d+) (?:others|line (\d+))")
FIRST_TURN = re.compile(r'history 0 |\{"history":0,')
# What a line's act may be.
TAKEN = {"read": "read", "commit": "report", "report": "report"}


def why_wrong(given, words, ran, **changed):
    """What is wrong with how a run on these bytes ended, or None."""
    options = options_of(words)._replace(**changed)
    status, out, err = judged(given, options)
    if status not in (0, 4):
        return fault_of(ran, Ran(status, out, err))
    found = fault_of(ran, Ran(status, None, err))
    if found:
        return found
    log = Log(lines_of(given, options.key, options.numbers), options)
    said = ran.out.decode().split("\n")
    if said.pop():
        return "the last line has no end"
    return why_wrong_faults(log, said) if status else why_wrong_ok(log, said)


def why_wrong_faults(log, said):
    """The faults are those of the definition, in their order, each with a true reason."""
    faults = log.listed()
    for (case, *it), line in zip(faults, said):
        true = case.texts(*it)
        if line not in true:
            return f"{line!r}, but what is true is {true}"
    wanted = log.totals()
    is_so = len(said) >= len(faults) and said[len(faults):] == wanted
    return None if is_so else f"{len(faults)} faults and {wanted} are wanted"


def why_wrong_ok(log, said):
    head = log.head()
    part = slice(-len(head), None) if log.options.json else slice(len(head))
    if said[part] != head:
        return f"{said[part]} in place of {head}"
    del said[part]
    if not log.options.history:
        return f"it says more: {said[0]!r}" if said else None
    firsts = [at for at, it in enumerate(said) if FIRST_TURN.match(it)]
    if firsts[:1] != [0] or len(firsts) != len(log.cases):
        return f"{len(firsts)} histories in place of {len(log.cases)}"
    for case, first, end in zip(log.cases, firsts, [*firsts[1:], len(said)]):
        turns = [turn_of(case, number, text) for number, text in enumerate(said[first:end])]
        faults = [it for it in turns if isinstance(it, str)]
        fault = faults[0] if faults else why_wrong_history(case, turns)
        if fault:
            return fault
    return None


def turn_of(case, number, text):
    """A turn: what, version, whose line (or None), if it is shared; or what is wrong with it."""
    try:
        if case.json:
            it = json.loads(text)
            what = next(name for name in ("ask", *TAKEN.values()) if name in it)
            version, place, is_shared = it[what], it["at"] and it["at"]["line"], it["shared"]
        else:
            what, version, place = TURN.match(text).groups()
            version, place, is_shared = int(version), place and int(place), text.endswith(" shared")
        turn = what, version, None if place is None else case.at.index(place - 1), is_shared
    except (AttributeError, KeyError, StopIteration, TypeError, ValueError):
        return f"{text!r} is no turn"
    wanted = case.turn(number, *turn)
    return turn if text == wanted else f"{text!r} in place of {wanted!r}"


def why_wrong_history(case, turns):
    """Whether an order explains the lines, act by act."""
    register = top = case.start
    drawn, moments, now, above = set(), {}, 0, None
    for turn in turns:
        what, version, k, is_shared = turn
        whose = "others" if k is None else f"line {k + 1}"
        wrong = why_wrong_turn(case, turn, above)
        if not is_shared:
            now += 1
            if what == "ask" and version <= max(top, register):
                wrong = wrong or f"{version} is drawn after {top}, at {register}"
            if what == "report" and version not in drawn:
                wrong = wrong or f"{version} is reported and was not drawn"
            if what == "read" and version != register:
                wrong = wrong or f"{version} is read at {register}"
            if what == "ask":
                top = version
                drawn.add(version)
            if what == "report":
                register = max(register, version)
        if k is not None and moments.setdefault((k, what == "ask"), now) != now:
            wrong = wrong or f"it has two turns with {what}"
        if wrong:
            return f"{whose}: {wrong}"
        above = turn
    return why_wrong_moments(case, turns, moments)


def why_wrong_turn(case, turn, above):
    """Whether a line, or others, may do this in an order."""
    what, version, k, is_shared = turn
    if k is None:
        if case.is_complete or what == "read":
            return f"others did nothing, or no such thing: {what} {version}"
        is_logged = what == "report" and case.reporters(version)
        return f"others reported {version}, and a line did" if is_logged else None
    line = case.lines[k]
    kind_is_right = line.kind in DRAWING if what == "ask" else TAKEN.get(line.kind) == what
    if line.value != version or not kind_is_right:
        return f"{what} {version} is none of its acts"
    is_one = above and above[:2] == (what, version) and above[2] is not None
    if is_shared != bool(is_one and case.lines[above[2]].kind == line.kind == "commit"):
        return f"{what} {version} is said to be shared or not, below {above}"
    return None


def why_wrong_moments(case, turns, moments):
    """Each line has each of its acts once, and what comes before comes before."""
    due = {(k, True) for k in case.places if case.lines[k].kind in DRAWING}
    due |= {(k, False) for k in case.places if case.lines[k].kind in SHOWING}
    if set(moments) != due or sum(turn[2] is not None for turn in turns) != len(due):
        return f"the turns of lines are not each once {sorted(due)}"
    for k in case.places:
        mine = [moments[it] for it in ((k, True), (k, False)) if it in moments]
        for j in case.before[k] if mine else ():
            # What an ask drew is told to later asks alone.
            if case.lines[j].kind == "ask" and case.lines[k].kind not in DRAWING:
                continue
            theirs = [moments[it] for it in ((j, True), (j, False)) if it in moments]
            if theirs and max(theirs) >= min(mine):
                return f"line {j + 1} is not before line {k + 1}"
    return None
