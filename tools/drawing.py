"""What a page shows of calls, without a pixel: their lanes and rows, what was known, and faults."""
import heapq
import json
import math
import re
from bisect import bisect_left
from collections import defaultdict
from itertools import accumulate
from typing import NamedTuple, Optional

CALLS = ("read", "commit", "ask", "report")
# What shows a version to all, and what must get one that is above all that was shown or drawn.
SHOWING, DRAWING = ("read", "commit", "report"), ("commit", "ask")
# Of so many clients all are shown where no fault is. A column of an axis without times is so wide,
# with so much free at each side of a bar.
MOST_LANES, COLUMN, FREE = 200, 10, 1
# What of a fault's part is left free at each side. Between its calls a gap of so many times their
# own length is drawn as long as half of it.
MARGIN, FAR, SHORT = 0.12, 8, 0.5
# Moments of more digits are told from the first one on. A longer name is cut in its middle.
DIGITS, LONGEST = 6, 36
# What is escaped in a name as the audit does, besides what JSON escapes, and what holds a name of
# letters that may turn the text about it.
NAMELESS, START = "callers without a name", "all began with it"
UNPRINTABLE = re.compile("[\x7f-\x9f\u061c\u200e\u200f\u2028-\u202e\u2066-\u2069]")
ISOLATED, JSON = "\u2068{}\u2069", json.JSONEncoder(ensure_ascii=False, separators=(",", ":"))


class Refused(Exception):
    """Says why a text is refused: a name, the line, counted from 1, and what is wrong there."""


class Line(NamedTuple):
    """A call: a line of a log, or of the text of a run."""

    client: Optional[str]
    kind: str
    label: str  # what stands at its bar beside the kind: a version, or another client
    began: int  # or its column, where calls have no times
    ended: Optional[int]  # which may not be known
    name: str  # how a fault calls it, as 'line 4'
    words: str  # what is said of it
    counts: str  # as which call of a log it counts for later ones, with which version
    version: int = 0
    source: Optional[int] = None  # the call from which it learnt, as a place in the list of calls
    key: Optional[str] = None


class Band(NamedTuple):
    """From here on this version is known, or is that of a record, which may be locked."""

    left: int
    label: str
    words: str
    locked: int = 0


class Fault(NamedTuple):
    """A fault: its name, what that means, and why it stands; calls are named by their places."""

    title: str
    means: str
    reason: str
    at: int  # the call at fault
    roles: dict  # all calls that are named, with what each is to it
    links: list  # two of these that are joined, and whether the first came before the second
    known: Optional[str]  # the version that was known, to which call
    knower: int
    late: str  # how late the call at fault was, or at least was, since which one's end
    is_least: bool
    first: Optional[int]


class Drawing(NamedTuple):
    """All that a page shows."""

    heading: str
    account: str  # what was found
    notes: list  # the rules that the picture goes by
    axis: str  # 'time', or 'order', where each call has a column
    lines: list
    rounds: list  # of a run, each from where to where, and its name
    bands: dict  # of each key
    faults: list
    kinds: dict  # how each kind of call is called at its bar, in the key, and in words


def counted(count, one):
    return f"{count:,} {one}{'' if count == 1 else 's'}"


def shown(value):
    """A name or a value in a sentence: no letter of it steers the text, or moves what is beside."""
    text = UNPRINTABLE.sub(lambda it: f"\\u{ord(it[0]):04x}", JSON.encode(value))
    text = text[1:-1] if isinstance(value, str) else text
    if len(text) > LONGEST:
        text = f"{text[:LONGEST // 2]}…{text[-LONGEST // 2:]}"
    return text if text.isascii() else ISOLATED.format(text)


def quoted(value):
    return f'"{shown(value)}"' if isinstance(value, str) else shown(value)


def heading(what, lines, name):
    clients = {it.client for it in lines}
    named = [counted(len(clients - {None}), "client")] * (clients != {None})
    of = " and ".join(named + [NAMELESS] * (None in clients))
    return f"A {what} of {of}" + (f": {shown(name)}" if name else "")


def column(at):
    """From where to where the bar of a column goes."""
    return at * COLUMN + FREE, (at + 1) * COLUMN - FREE


class Rising:
    """Versions by moments: which was the newest before one."""

    def __init__(self, pairs=()):
        self.moments = [moment for moment, _version in sorted(pairs)]
        self.newest = [0, *accumulate((version for _moment, version in sorted(pairs)), max)]

    def before(self, moment):
        return self.newest[bisect_left(self.moments, moment)]


def known_by_time(lines, margin, start):
    """What each call knew when it began: of asks and commits also what had been drawn."""
    found, none = [start] * len(lines), Rising()
    for kinds, is_drawing in ((SHOWING, False), (CALLS, True)):
        to_all, own = defaultdict(list), defaultdict(list)
        for at, it in enumerate(lines):
            if it.ended is not None and it.counts in kinds:
                to_all[it.key].append((it.ended + margin, it.version))
                own[it.key, it.client].append(((it.ended, at), it.version))
        to_all, own = ({key: Rising(it) for key, it in of.items()} for of in (to_all, own))
        for at, it in enumerate(lines):
            if (it.counts in DRAWING) == is_drawing:
                mine = none if it.client is None else own.get((it.key, it.client), none)
                found[at] = max(start, to_all.get(it.key, none).before(it.began),
                                mine.before((it.began, at)))
    return found


def known_by_telling(lines, start):
    """The same without times: by a client's calls above, and what it had learnt by them."""
    found, after, last = [], [], {}
    for at, it in enumerate(lines):
        before = after[last[it.key, it.client]] if (it.key, it.client) in last else (start, start)
        found.append(before[it.counts in DRAWING])
        own = it.version if it.counts in SHOWING else start, it.version
        after.append([*map(max, before, before if it.source is None else after[it.source], own)])
        last[it.key, it.client] = at
    return found


def rising(moments):
    """A band for each version that is newer than all before: from moments, versions and reasons."""
    found, newest = [], -1
    for left, version, why in sorted(moments, key=lambda it: (it[0], -it[1])):
        if version > newest:
            words = f"From here on {version} is known to all: {why}."
            found.append(Band(left, f"{version}{' known from the start' * (why == START)}", words))
            newest = version
    return found


def end_of(line):
    return line.began if line.ended is None else line.ended


def rows_of(lines):
    """The row of each call in its lane: calls that overlap stand in rows below one another.
    A call whose end is not known may reach any later one, and has a row of its own."""
    rows, free = [0] * len(lines), {}
    for at in sorted(range(len(lines)), key=lambda it: (lines[it].began, it)):
        line = lines[at]
        ends, idle = free.setdefault(line.client, ([], []))
        while ends and ends[0][0] <= line.began:
            heapq.heappush(idle, heapq.heappop(ends)[1])
        rows[at] = heapq.heappop(idle) if idle else len(ends)
        heapq.heappush(ends, (math.inf if line.ended is None else line.ended, rows[at]))
    return rows


def opened(fault, lines, axis, origin):
    """The part of the axis that shows a fault; its gaps: from where to where, how long drawn."""
    calls = [lines[it] for it in fault.roles]
    ends = sorted((it.began - origin, end_of(it) - origin) for it in calls)
    reached = [*accumulate((end for _begin, end in ends), max)]
    free = [(end, begin) for end, (begin, _end) in zip(reached, ends[1:]) if begin > end]
    left, right = ends[0][0], reached[-1]
    own = max(1, right - left - sum(begin - end for end, begin in free))
    gaps = [[end + MARGIN * own, begin - MARGIN * own, SHORT * own]
            for end, begin in free if begin - end > FAR * own]
    size = right - left - sum(end - begin - drawn for begin, end, drawn in gaps)
    more = max(1, (MARGIN if len(ends) > 1 else 1) * size) if axis == "time" else COLUMN
    return {"from": left - more, "to": right + more, "gaps": gaps}


def columns_of(drawing):
    """All that the page's code draws, as lists with an item for each call."""
    lines, kinds = drawing.lines, {kind: at for at, kind in enumerate(drawing.kinds)}
    lanes = {it: at for at, it in enumerate(dict.fromkeys(it.client for it in lines))}
    keys = {it: at for at, it in enumerate(drawing.bands)}
    is_far = drawing.axis == "time" and max(map(end_of, lines), default=0) >= 10**DIGITS
    origin = min(it.began for it in lines) if is_far else 0
    left = [it.began - origin for it in lines]
    right = [None if it.ended is None else it.ended - origin for it in lines]
    faults = [{**it._asdict(), "roles": [*it.roles.items()], "key": keys[lines[it.at].key],
               "lanes": [*dict.fromkeys(lanes[lines[at].client] for at in it.roles)],
               **opened(it, lines, drawing.axis, origin)} for it in drawing.faults]
    first, last = min(left, default=0), max(map(end_of, lines), default=origin + 1) - origin
    free = max(1, (last - first) / 50)
    of = lambda rows, *names: {name: [getattr(it, name) for it in rows] for name in names}
    return {
        "axis": drawing.axis,
        "origin": f"{origin:,}" if origin else "",
        "from": min([first - free, *(it["from"] for it in faults)]),
        "to": max([last + free, *(it["to"] for it in faults)]),
        "lanes": [NAMELESS if it is None else f"client {shown(it)}" for it in lanes],
        "most_lanes": MOST_LANES,
        "kinds": [{"id": it, "short": short} for it, (short, *_words) in drawing.kinds.items()],
        "lane": [lanes[it.client] for it in lines],
        "kind": [kinds[it.kind] for it in lines],
        "row": rows_of(lines),
        "left": left,
        "right": right,
        **of(lines, "label", "name", "words"),
        "key": [keys[it.key] for it in lines] if len(keys) > 1 else [],
        "keys": ["no key" if it is None else quoted(it) for it in keys],
        "rounds": drawing.rounds,
        "bands": [{**of(bands, *Band._fields), "left": [it.left - origin for it in bands]}
                  for bands in drawing.bands.values()],
        "arrows": [[it.source, at] for at, it in enumerate(lines) if it.source is not None],
        "faults": faults,
    }
