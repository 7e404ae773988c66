"""Watches with ample memory: no number of lines that are kept, told or left out is refused for it.

The rows are as those of audits of whole logs.
"""
import tempfile

import follow_model
from ample_audits import CHEAP, DEAR, FAULTY, FEW, LINES, MARGINS, MOST, NUMBERS, PROGRAM
from ample_audits import REFUSED, Row, all_stale, at_moment, by_model, calls, clients, ends
from ample_audits import keyed, line, long_names, rising, rows, stale, stale_and_shown, total
from ample_audits import worked
from follow import warned_of
from follow_model import ROOM, SAID_AHEAD, SAID_LAST, Warned
from harness import Ran, apart, fault_of, grouped, run
from kept_logs import lines_kept

# How far behind the newest end lines may begin where none is settled before the end.
FAR = 2**40


# ---- lines, and what is said of them


def watched(lines, early=0, refused=0, **kinds):
    named = {"reads": 0, "commits": 0, "asks": 0, "reports": 0, **kinds}
    return (f"lines {lines} {' '.join(f'{it} {n}' for it, n in named.items())} refused {refused} "
            f"early {early}")


def all_open(count):
    """Commits of which none is settled before the end."""
    _, log, _ = rising(count)
    return ["--follow", str(FAR)], log, [f"audit ok {watched(count, commits=count)}"]


def all_settled(count):
    """Commits that are settled as they come."""
    _, log, _ = rising(count)
    return ["--follow", "0"], log, [f"audit ok {watched(count, commits=count)}"]


def all_told(count, behind=0):
    """Stale reads, each of which is told."""
    _, log, said = all_stale(count)
    said[-3] = f"audit total {watched(count + 1, reads=count, commits=1)}"
    return ["--follow", str(behind), "--all"], log, said


def all_told_at_the_end(count):
    """The same, where all is open up to the end."""
    return all_told(count, FAR)


def told_by_key(count):
    """A commit of each key, and below them a read of the last one, which is stale by that."""
    log = "".join(line(at, "commit", 5, more=keyed(at)) for at in range(count))
    log += line(count, "read", 0, "b", keyed(count - 1))
    return ["--follow", str(FAR), "--key", "k"], log, [
        f'audit fault: Order {count + 1}: client "b" read 0 "k":"{count - 1}", but 5 was known: '
        f'line {count} (client "a", commit 5 "k":"{count - 1}") had ended 3 before line '
        f'{count + 1} began']


def told_and_shown(count):
    """Stale reads, each of which shows another text."""
    words, log, said = stale_and_shown(count)
    said[count] = f"audit total {watched(count + 1, reads=count, commits=1)}"
    if count > ROOM:
        said[count + 3:] = [f"{it} more" for it in said[count + 3:]]
    return ["--follow", "0", *words], log, said


def of_groups(count):
    """Stale reads, each of another client that shows another text, and two more below them.

    One is of the first client and its text, and one of no client, which shows none.
    """
    shown = lambda at: f',"x":[{at}]'
    log = line(0, "commit", 5) + "".join(
        line(at, "read", 0, f"b{at}", shown(at)) for at in range(1, count + 1))
    log += line(count + 1, "read", 0, "b1", shown(1))
    none = line(count + 2, "read", 0).replace('"client":"a",', "")
    words = ["--follow", "0", "--show", "x", "--summary"]
    return words, log + none, watched(count + 3, reads=count + 2, commits=1)


def ranked(count, first, none, named):
    """The groups with most of these faults: the first, that of none, and those in order."""
    return [first, none, *(named(at) for at in range(2, min(count, ROOM) + 1))][:MOST]


def told_of_groups(count):
    """Such reads, of which those of the first clients and texts are counted by these."""
    words, log, said = of_groups(count)
    more = " more" * (count > ROOM)
    said = [f"audit total {said}", total("Order", count + 2)]
    for whose, none in (('client "b{}" ', "no client "), ('"x":[{}] ', 'no "x" ')):
        said += [f"{it}{more}" for it in ranked(
            count, total("Order", 2, whose.format(1)), total("Order", 1, none),
            lambda at, whose=whose: total("Order", 1, whose.format(at)))]
    return words, log, said


def told_of_groups_in_json(count):
    """The same as objects."""
    words, log, said = of_groups(count)
    more = ',"more":true' * (count > ROOM)
    of = lambda times, more="": (
        f'"faults":{times},"Order":{times},"Wrong":0,"NotAbove":0,"Twice":0,"Stray":0{more}}}')
    numbers = said.split()
    counts = ",".join(f'"{name}":{n}' for name, n in zip(numbers[::2], numbers[1::2]))
    said = [f'{{"total":{{{counts}}},"arguments":{{"follow":0,"margin":0,"by_key":false,'
            '"members":["x"]}}', f"{{{of(count + 2)}"]
    for whose in ('"client":{}', '"members":{{"x":{}}}'):
        text = '"b{}"' if whose[1] == "c" else "[{}]"
        group = lambda name, times, whose=whose: f"{{{whose.format(name)},{of(times, more)}"
        said += ranked(count, group(text.format(1), 2), group("null", 1),
                       lambda at, group=group, text=text: group(text.format(at), 1))
    return [*words, "--json"], log, said


def told_of_keys(count):
    """A stale read of each key: those of the first keys are counted by these."""
    log = "".join(line(2 * at, "commit", 5, more=keyed(at))
                  + line(2 * at + 1, "read", 0, "b", keyed(at)) for at in range(count))
    more = " more" * (count > ROOM)
    said = [f"audit total {watched(2 * count, reads=count, commits=count)}",
            total("Order", count), total("Order", count, 'client "b" ')]
    said += [total("Order", 1, f'"k":"{at}" ') + more for at in range(min(count, ROOM))[:MOST]]
    return ["--follow", "0", "--key", "k", "--summary"], log, said


def told_of_long_names(size):
    words, log, said = long_names(size)
    return ["--follow", "0", *words], log, said


def told_of_clients(count):
    words, log, said = clients(count)
    return ["--follow", "3", *words], log, said


def behind(most):
    """A commit that ends at 0 and a read that begins 1 later, where lines may be so far behind."""
    log = calls(("a", "commit", 5, 0, 0), ("b", "read", 0, 1, 1))
    return ["--follow", str(most)], log, [
        'audit fault: Order 2: client "b" read 0, but 5 was known: line 1 (client "a", commit 5) '
        'had ended 1 before line 2 began']


def told_at(moment):
    """A watch of a read at a moment. All is open, so that its lateness is exact."""
    _, log, said = at_moment(moment)
    return ["--follow", str(2**63 - 1)], log, said


def settled_at(moment):
    """The same, where all is settled as it comes."""
    _, log, said = at_moment(moment)
    return ["--follow", "0"], log, said


FOLLOWED = ("Follower::new, Follower::behind, Follower::feed, Follower::tell, Follower::finish, "
            "LineReader::new, LineReader::feed, LineReader::finish, KeyWatch::push, "
            "KeyWatch::settle, KeyWatch::finish, Watch::push, Watch::finish, standing")
WATCHES = (
    Row(FOLLOWED, all_open, CHEAP),
    Row(FOLLOWED, all_settled, CHEAP),
    Row(FOLLOWED, all_told, LINES),
    Row(FOLLOWED, all_told_at_the_end, DEAR),
    Row(f"{FOLLOWED}, printed_name", told_by_key, DEAR),
    Row(f"{FOLLOWED}, shown_text", told_and_shown, DEAR),
    Row(f"{FOLLOWED}, shown_text, printed_name", told_of_long_names, CHEAP),
    Row(FOLLOWED, told_of_clients, DEAR),
    Row(FOLLOWED, behind, MARGINS),
    Row(FOLLOWED, told_at, NUMBERS),
    Row(FOLLOWED, settled_at, NUMBERS),
)
# The first fault of each of these rows is that of line 2.
GROUPS = (1, FEW, ROOM - 1, ROOM, ROOM + 1)
GROUPED = (
    Row(f"{FOLLOWED}, shown_text", told_of_groups, LINES),
    Row(f"{FOLLOWED}, shown_text", told_of_groups_in_json, GROUPS),
    Row(f"{FOLLOWED}, printed_name", told_of_keys, GROUPS),
)


def all_refused(count):
    """Lines that are refused below a commit, and a stale read below them."""
    log = line(0, "commit", 5) + "{}\n" * count + line(1, "read", 0, "b")
    said = stale(1).replace("Order 2", f"Order {count + 2}").replace(
        "before line 2 began", f"before line {count + 2} began")
    return ["--follow", "0"], log, [said]


def refused_at(numbers):
    return "".join(
        f"fdb_audit: logs refused: NoCall {at}: no read, commit, ask, report or learn\n"
        for at in numbers).encode()


# Of these rows standard error has a line for each of the lines from the second on that is refused.
WARNED = (Row(FOLLOWED, all_refused, LINES),)


def of_lines(_program):
    """Watches of as many lines as one likes say what was worked out of them."""
    yield from worked(WATCHES)


def of_lines_by_model(_program):
    """So does the audit's model."""
    yield from by_model(WATCHES)


def of_first(said):
    """How a watch ends that says this of faults of which the first is that of line 2."""
    out = "".join(f"{it}\n" for it in said).encode()
    return Ran(FAULTY, out, b"fdb_audit: audit fault: Order 2\n")


def of_totals(_program):
    """The totals of a watch are by as many clients, texts and keys as there is room for."""
    for name, _, words, log, said in rows(GROUPED):
        ran = follow_model.without_progress(run([PROGRAM, *words], log.encode()))
        yield name, fault_of(ran, of_first(said))


def of_totals_by_model(_program):
    """So are the model's, where there are few."""
    for name, _, words, log, said in rows(GROUPED, few=True):
        yield name, fault_of(follow_model.judged_as(log.encode(), words), of_first(said))


def of_refused_lines(_program):
    """So do watches of logs of which as many lines as one likes are refused."""
    for name, number, words, log, said in rows(WARNED):
        wanted = ends(said, refused_at(range(2, number + 2)))
        yield name, fault_of(run([PROGRAM, *words], log.encode()), wanted)


# ---- lines that come early, and lines that are kept


def settling(at, version, more=""):
    """Two lines at a place, of clients that vouch for one another."""
    return "".join(line(at, "read", version, it, more) for it in ("c", "d"))


def early(count):
    """Lines that begin before what was settled, which was settled as nothing more came for a while.

    They come in the pieces of a pipe that keeps them apart, each of whole lines.
    """
    rest = "".join(line(at, "read", at, "b") for at in range(count))
    return ["--follow", "0"], [settling(FAR, 5), rest], [
        f"audit early {watched(count + 2, early=count, reads=count + 2)} judged 0 ahead 1"]


def unjudged(count, said):
    """How a watch ends that says this, of which so many lines came early.

    It is said of the first, and of each at which their number has doubled.
    """
    first, *warned = [Warned(at + 3, 4 * FAR + 1 - 4 * at, at + 1)
                      for at in range(count) if at + 1 & at == 0]
    # The first also ended that long before those that vouch for one another.
    warned = [first, Warned(3, 4 * FAR, 1, SAID_AHEAD), *warned]
    out = "".join(f"{it}\n" for it in said).encode()
    return Ran(REFUSED, out, warned_of(*warned, SAID_LAST.format(count + 2)))


def kept(count):
    """Commits that are kept, since each may yet matter, and a stale read that comes later.

    It is told as lines come that end so far behind it that none that comes begins before it.
    """
    _, log, said = rising(count)
    late = line(count, "read", count - 1, "b") + settling(FAR, count)
    told = [f'audit fault: Order {count + 1}: client "b" read {count - 1}, but {count} was known: '
            f'line {count} (client "a", commit {count}) had ended 3 before line {count + 1} began']
    words = ["--follow", str(FAR)]
    return words, [log, late], [[f"audit ok {watched(count, commits=count)}"], told]


def kept_by_key(count):
    """The same where each has a key and a shown text, of which the read has the last."""
    more = lambda at: keyed(at) + keyed(f"note {at}", "x")
    log = "".join(line(at, "commit", 5, f"c{at}", more(at)) for at in range(count))
    last = count - 1
    late = line(count, "read", 0, "b", more(last)) + settling(FAR, 5, more(last))
    beside = f' "k":"{last}" "x":"note {last}"'
    told = [f'audit fault: Order {count + 1}: client "b" read 0{beside}, but 5 was known: line '
            f'{count} (client "c{last}", commit 5{beside}) had ended 3 before line {count + 1} '
            'began']
    words = ["--follow", str(FAR), "--key", "k", "--show", "x"]
    return words, [log, late], [[f"audit ok {watched(count, commits=count)}"], told]


def kept_behind_refused(count):
    """A commit is kept and how many lines were refused, among which the later ones are counted."""
    log, late = line(0, "commit", 5) + "{}\n" * count, line(1, "read", 0, "b")
    told = [stale(1).replace("Order 2", f"Order {count + 2}").replace(
        "before line 2 began", f"before line {count + 2} began")]
    ok = f"audit ok {watched(1, refused=count, commits=1)}"
    return ["--follow", str(FAR)], [log, late + settling(FAR, 5)], [[ok], told]


KEPT = f"{FOLLOWED}, Follower::kept, Follower::stop, Follower::restore, KeyWatch::kept"
EARLY = (Row(FOLLOWED, early, LINES),)
AGAIN = (
    Row(KEPT, kept, DEAR),
    Row(KEPT, kept_by_key, (1, FEW, 65_537)),
    Row(KEPT, kept_behind_refused, LINES),
)
TABLES = (WATCHES, GROUPED, WARNED, EARLY, AGAIN)


def of_early_lines(_program):
    """Lines that come early are counted, however many there are, and then not all was judged."""
    for name, number, words, (first, rest), said in rows(EARLY):
        pieces = [first.encode(), *grouped(rest.encode().splitlines(True))]
        ran = apart([PROGRAM, *words], pieces)
        yield name, fault_of(ran, unjudged(number, said))


def of_kept_lines(_program):
    """A watch goes on from as many lines as were kept, with the numbers that they had."""
    for name, _, words, (log, late), (first, then) in rows(AGAIN):
        count = log.count("\n")
        with tempfile.TemporaryDirectory() as folder:
            words = [PROGRAM, *words, "--keep", f"{folder}/kept"]
            refused = refused_at(range(2, count + 1)) if "{}" in log else b""
            fault = fault_of(run(words, log.encode()), ends(first, refused))
            found = lines_kept(f"{folder}/kept")
            fault = fault or (None if found == count else f"it stands for {found} lines")
            yield f"{name}, at first", fault
            yield f"{name}, later", fault_of(run(words, late.encode()), ends(then))
