"""Whether any order explains a small log, by trying all; and random logs.

It takes from the audit's model how a line is read, and nothing of what is asked of lines.
"""
import json

from audit_lines import lines_of
from audit_model import DRAWING, REPORTING, SHOWING, Case, Log
from reader import Refused

NAMES = ("a", "b", "c", 'd "e"', "two\nlines", "Ærø", "")


def comes_before(lines, margin, j, k):
    """Whether line j comes before line k."""
    a, b = lines[j], lines[k]
    if a.began is None:
        return has_heard(lines, k, b.client, j)
    if a.ended is None:
        return False
    is_own = a.client is not None and a.client == b.client
    return a.ended + margin < b.began or is_own and (
        a.ended < b.began or a.ended == b.began and j < k
    )


def has_heard(lines, count, client, j):
    """Whether a client has heard of line j by the first lines, so many."""
    for n in range(count):
        if lines[n].client == client and (
            n == j or lines[n].kind == "learn" and has_heard(lines, n, lines[n].value, j)
        ):
            return True
    return False


def acts_of(lines):
    """The acts of lines: what, version, the lines. Commits of a version asked for it together."""
    for k, line in enumerate(lines):
        if line.kind in DRAWING:
            share = [j for j, it in enumerate(lines) if it.kind == "commit" == line.kind
                     and it.value == line.value] or [k]
            if share[0] == k:
                yield "ask", line.value, share
        if line.kind in SHOWING:
            yield "read" if line.kind == "read" else "report", line.value, [k]


def needs_of(lines, margin, acts):
    """For each act those that have to come before it, by their places."""
    def comes(a, b):
        return any(
            comes_before(lines, margin, j, k)
            and (lines[j].kind in SHOWING or lines[k].kind in DRAWING)
            for j in a[2] for k in b[2]
        )
    return [{i for i, a in enumerate(acts) if comes(a, b)} for b in acts]


def is_owned(lines):
    """Whether each report is of a version that its client drew, where any line did.

    Of a line without a client that may be so, whoever is meant; and so if the line that drew it
    is without.
    """
    drew = [(it.value, it.client) for it in lines if it.kind in DRAWING]
    return all(
        {(line.value, line.client), (line.value, None)} & set(drew)
        for line in lines if line.kind == "report" and line.client is not None
        and line.value in {version for version, _ in drew}
    )


def is_explained(lines, options):
    """Whether some order of the acts, and of what others may have done, explains the lines."""
    acts = list(acts_of(lines))
    needs, start = needs_of(lines, options.margin, acts), options.complete or 0
    reported = {line.value for line in lines if line.kind in REPORTING}
    others = set() if options.complete is not None else {version for _, version, _ in acts}
    todo, met = [(frozenset(), start, start, frozenset())], set()
    if not is_owned(lines):
        return False
    while todo:
        state = todo.pop()
        if state in met:
            continue
        met.add(state)
        done, register, top, drawn = state
        if len(done) == len(acts):
            return True
        more = [(done | {i}, *it[:2]) for i, it in enumerate(acts)
                if i not in done and needs[i] <= done]
        more += [(done, "ask", it) for it in others]
        more += [(done, "report", it) for it in others - reported]
        for then, what, version in more:
            if what == "ask" and version > max(register, top):
                todo.append((then, register, version, drawn | {version}))
            elif what == "report" and version in drawn:
                todo.append((then, max(register, version), top, drawn))
            elif what == "read" and version == register:
                todo.append((then, register, top, drawn))
    return False


# ---- random logs


def random_lines(dice):
    """A few lines, with times or without, as objects."""
    names = dice.choice([(None,), NAMES[:2], NAMES[:3], ("a", None), NAMES])
    kinds = dice.choice([
        ("read", "read", "commit", "ask", "report", "commit"), ("read", "commit"),
        ("read", "ask", "report"), ("read", "read", "commit", "ask"),
        ("read", "commit", "ask", "ask"),
    ])
    has_times, top, low = dice.random() < 0.5, dice.choice((2, 3, 5, 7)), dice.choice((0, 1, 1))
    lines, clocks, learns, keyed = [], {}, dice.choice((0, 0.2, 0.5)), dice.choice((0, 0.9))
    for _ in range(dice.randint(1, 7 if has_times else 11)):
        client = dice.choice(names)
        if not has_times:
            client = "nobody" if client is None else client
        line = {} if client is None else {"client": client}
        told = [it["client"] for it in lines if "client" in it]
        if not has_times and told and dice.random() < learns:
            line["learn"] = dice.choice(told)
        else:
            line[dice.choice(kinds)] = dice.randint(low, top)
        if has_times:
            began = clocks.get(client, 0) + dice.randint(0, dice.choice((0, 1, 3)))
            began = began if client is not None else dice.randint(0, 8)
            ended = began + dice.choice((0, 0, 1, 3, 6))
            clocks[client] = dice.choice((began, ended, ended, ended + 1))
            unknown = dice.random() < (0.2 if "report" in line else 0.03)
            line |= {"began": began, "ended": None if unknown else ended}
        if dice.random() < keyed:
            line["key"] = dice.choice((1, "1", "x\u2028", "y"))
        if dice.random() < 0.3:
            line["note"] = dice.choice((None, True, 1, "1", [], [{"a": "\u202e\n"}]))
        lines.append(line)
    if has_times and dice.random() < 0.5:
        dice.shuffle(lines)
    return lines


def text_of(lines, dice=None):
    """The bytes of lines; with dice, as one writer or the other may write them."""
    ascii, end = (dice.random() < 0.5, dice.choice(("\n", "\n", "\r\n"))) if dice else (False, "\n")
    text = "".join(json.dumps(it, ensure_ascii=ascii) + end for it in lines)
    return (text.removesuffix("\n") if dice and dice.random() < 0.2 else text).encode()


def random_words(dice):
    """Arguments without those that only say what is printed, and without a file."""
    words = ["--key", dice.choice(("key", "client"))] if dice.random() < 0.3 else []
    words += ["--show", dice.choice(("note", "read,note"))] * (dice.random() < 0.3)
    if dice.random() < 0.5:
        words += ["--complete", str(dice.choice((0, 0, 1, 2)))]
    if dice.random() < 0.5:
        words += ["--margin", str(dice.choice((0, 1, 1, 2)))]
    return words


def fault_of_search(given, options):
    """Whether the model finds no fault just where an order explains a small log.

    By keys that is one for the lines of each.
    """
    try:
        lines = lines_of(given, options.key)
    except Refused:
        return None
    faults, keys = Log(lines, options).faults(), {line.key for line in lines}
    explained = all(is_explained([it for it in lines if it.key == key], options) for key in keys)
    if explained == bool(faults):
        return f"{faults}, but explained: {explained}"
    wrong = [it for it in faults if it[1] in ("Order", "NotAbove")
             and not is_so_late(lines, options, *it)]
    return f"{wrong} are not so late" if wrong else None


def is_so_late(lines, options, case, fault, k):
    """Whether a fault stands under the margin below its lateness, and not by others beyond."""
    under = lambda it: Case(lines, options._replace(margin=it), case.at).stands(fault, k)
    _line, by = case.late(fault, k) or (None, 0)
    return (not by or under(by - 1)) and (not under(by) or under(1_000))
