"""Audits with ample memory: no number of lines, of names, or of anything else is refused for it.

No clause says that a call is not refused memory, so that a body may refuse what it likes for want
of it. Each row of a table names the calls that a run makes, how its arguments and its log are made
from a number, with all that is then said of it, and the numbers at which it is to succeed. What is
said is worked out beside each log, and the audit's model says the same where the number is small.
"""
from typing import Callable, NamedTuple

import follow_model
from audit_logs import FAULT, FAULTY, OK, PROGRAM, REFUSED
from audit_model import MOST
from harness import Ran, fault_of, run

# At most so many lines are told to the model.
FEW = 9
# The bound of each row that grows by lines: around 2^16, beyond it, and far beyond.
AROUND = (65_535, 65_536, 65_537)
LINES = (1, FEW, *AROUND, 100_000)
CHEAP = (*LINES, 200_000)
# Where much is said of each line, that it does not take minutes.
DEAR = (1, 2, FEW, 65_537, 100_000)
# Of each number that is only compared, or printed: to the most that it may be.
COUNTS = (0, 1, *AROUND, 2**31, 2**32 - 1, 2**32, 2**32 + 1, 2**63 - 2)
MARGINS = (*COUNTS, 2**63 - 1)
NUMBERS = (*MARGINS, 2**63, 2**64 - 2)
# Those of rows whose logs have few lines, whatever the number.
ALONE = (COUNTS, MARGINS, NUMBERS)
# Members of a line are as many as it has room for; those that are shown, as an argument has.
MEMBERS = (1, 2, FEW, *AROUND, 100_000)
SHOWN = (1, 2, FEW, 1_000, 4_096, 10_001)
# How long an argument may be that has some more.
ARGUMENTS = (1, FEW, *AROUND, 131_000)


class Row(NamedTuple):
    """The calls that a run makes, how it is made from a number, and the numbers.

    What makes it gives the arguments, the log and all lines that are printed.
    """

    calls: str
    made: Callable
    numbers: tuple


# ---- lines, and what is said of them


def line(at, kind, version, client="a", more=""):
    """The line at a place: its call began at four times that, and ended by one later."""
    times = f'"began":{4 * at},"ended":{4 * at + 1}'
    return f'{{"client":"{client}","{kind}":{version},{times}{more}}}\n'


def counted(lines, ordered, reads=0, commits=0, asks=0, reports=0, unreported=0):
    return (f"lines {lines} timed {lines} reads {reads} commits {commits} asks {asks} reports "
            f"{reports} learns 0 unreported {unreported} ordered {ordered}")


def pairs(lines):
    """How many pairs there are of so many lines: all are ordered that come one after the other."""
    return lines * (lines - 1) // 2


def total(kind, times, whose=""):
    kinds = {"Order": 0, "Wrong": 0, "NotAbove": 0, "Twice": 0, "Stray": 0, kind: times}
    return f"audit total {whose}faults {times} {' '.join(f'{it} {n}' for it, n in kinds.items())}"


def stale(at, by=5, client="b", beside="", of="a", named=""):
    """What is said of a read of 0 at a place, where the first line alone shows a version.

    That has ended at 1, and the read began at four times its place.
    """
    return (f'audit fault: Order {at + 1}: client "{client}" read 0{beside}, but {by} was known: '
            f'line 1 (client "{of}", commit {by}{named}) had ended {4 * at - 1} before line '
            f'{at + 1} began')


# ---- audits of whole logs


def rising(count):
    """Commits one after the other, each of a version above."""
    log = "".join(line(at, "commit", at + 1) for at in range(count))
    return [], log, [f"audit ok {counted(count, pairs(count), commits=count)}"]


def one_stale(count):
    """Below them a read of the first version: at the second line it is the first that outdates it.

    The line above the read had ended 3 before it began, and the second line at 5.
    """
    _, log, _ = rising(count + 1)
    here, known = count + 2, f'line {count + 1} (client "a", commit {count + 1}) had ended 3 before'
    late = 4 * (count + 1) - 5
    said = (f'audit fault: Order {here}: client "b" read 1, {late} too late: line 2 (client "a", '
            f'commit 2) had ended {late} before line {here} began, and {count + 1} was known: '
            f'{known} line {here} began')
    if count == 1:
        said = (f'audit fault: Order 3: client "b" read 1, but 2 was known: line 2 (client "a", '
                'commit 2) had ended 3 before line 3 began')
    return [], log + line(count + 1, "read", 1, "b"), [said]


def all_stale(count):
    """Behind a commit reads of 0, each of which is stale."""
    log = line(0, "commit", 5) + "".join(line(at, "read", 0, "b") for at in range(1, count + 1))
    judged = counted(count + 1, pairs(count + 1), reads=count, commits=1)
    return ["--all"], log, [*map(stale, range(1, count + 1)), f"audit total {judged}",
                            total("Order", count), total("Order", count, 'client "b" ')]


def all_stale_in_json(count):
    """The same as objects."""
    _, log, _ = all_stale(count)
    of = '{"line":1,"client":"a","commit":5,"began":0,"ended":1}'
    said = [f'{{"fault":"Order","at":{{"line":{at + 1},"client":"b","read":0,"began":{4 * at},'
            f'"ended":{4 * at + 1}}},"late":{4 * at - 1},"first":{of},"reason":"known","known":5,'
            f'"by":{of},"means":"ended"}}' for at in range(1, count + 1)]
    none = ',"Wrong":0,"NotAbove":0,"Twice":0,"Stray":0}'
    return ["--json"], log, [
        *said,
        f'{{"total":{{"lines":{count + 1},"timed":{count + 1},"reads":{count},"commits":1,"asks":0,'
        f'"reports":0,"learns":0,"unreported":0,"ordered":{pairs(count + 1)}}},"arguments":'
        '{"complete":null,"margin":0,"by_key":false,"members":[]}}',
        f'{{"faults":{count},"Order":{count}{none}',
        f'{{"client":"b","faults":{count},"Order":{count}{none}',
    ]


def explained(count):
    """An order of commits: each has its ask and its report."""
    _, log, said = rising(count)
    turns = [f'history {{}} {{}} {at + 1} line {at + 1} client "a"' for at in range(count)]
    said += [turn.format(2 * at + act, ("ask", "report")[act])
             for at, turn in enumerate(turns) for act in (0, 1)]
    return ["--history"], log, said


def keyed(at, name="k"):
    return f',"{name}":"{at}"'


def explained_by_key(count):
    """A history for each key, of which each has one line."""
    log = "".join(line(at, "commit", 5, more=keyed(at)) for at in range(count))
    said = [f'history {number} {act} 5 line {at + 1} client "a" "k":"{at}"'
            for at in range(count) for number, act in enumerate(("ask", "report"))]
    return ["--key", "k", "--history"], log, [
        f"audit ok {counted(count, 0, commits=count)}", *said]


def stale_by_key(count):
    """Of each key a commit and below all of these a read, which is stale by its key's commit."""
    log = "".join(line(at, "commit", 5, more=keyed(at)) for at in range(count))
    log += "".join(line(count + at, "read", 0, "b", keyed(at)) for at in range(count))
    said = [f'audit fault: Order {count + at + 1}: client "b" read 0 "k":"{at}", but 5 was known: '
            f'line {at + 1} (client "a", commit 5 "k":"{at}") had ended {4 * count - 1} before '
            f'line {count + at + 1} began' for at in range(count)]
    said += [f"audit total {counted(2 * count, count, reads=count, commits=count)}",
             total("Order", count), total("Order", count, 'client "b" ')]
    said += [total("Order", 1, f'"k":"{at}" ') for at in range(count)[:MOST]]
    return ["--key", "k", "--all"], log, said


def stale_and_shown(count):
    """Stale reads of which each shows another text."""
    log = line(0, "commit", 5) + "".join(
        line(at, "read", 0, "b", f',"x":[{at}]') for at in range(1, count + 1))
    said = [stale(at, beside=f' "x":[{at}]') for at in range(1, count + 1)]
    said += [f"audit total {counted(count + 1, pairs(count + 1), reads=count, commits=1)}",
             total("Order", count), total("Order", count, 'client "b" ')]
    said += [total("Order", 1, f'"x":[{at}] ') for at in range(1, count + 1)[:MOST]]
    return ["--show", "x", "--all"], log, said


def long_names(size):
    """Two clients, a key and a shown text, each of so many bytes; in a name DEL is an escape."""
    a, b, key, shown = "a" * size, "\x7f" * size, "k" * size, "x" * size
    more = f',"k":"{key}","x":"{shown}"'
    beside = f' "k":"{key}" "x":"{shown}"'
    log = line(0, "commit", 5, a, more) + line(1, "read", 0, b, more)
    return ["--key", "k", "--show", "x"], log, [
        stale(1, client="\\u007f" * size, of=a, beside=beside, named=beside)]


def long_members(size):
    """Names of members of so many bytes: of a key, and of what is shown."""
    key, shown = "k" * size, "x" * size
    more = f',"{key}":"a","{shown}":7'
    beside = f' "{key}":"a" "{shown}":7'
    log = line(0, "commit", 5, more=more) + line(1, "read", 0, "b", more)
    return ["--key", key, "--show", shown], log, [stale(1, beside=beside, named=beside)]


def long_numbers(size):
    """A margin of so many digits."""
    _, log, said = long_lists(1)
    return ["--show", "x", f"--margin={'0' * (size - 1)}1"], log, said


def long_lists(size):
    """A shown text that is a list of so many."""
    text = f"[{','.join('0' * size)}]"
    log = line(0, "commit", 5) + line(1, "read", 0, "b", f',"x":{text}')
    return ["--show", "x"], log, [stale(1, beside=f' "x":{text}')]


def many_members(count):
    """A line with so many members that are ignored."""
    log = line(0, "commit", 5) + line(1, "read", 0, "b", ',"m":0' * count)
    return [], log, [stale(1)]


def many_shown(count):
    """So many members are shown of a line, of which it has the last."""
    names = [f"{at:x}" for at in range(count)]
    log = line(0, "commit", 5) + line(1, "read", 0, "b", f',"{names[-1]}":7')
    return ["--show", ",".join(names)], log, [stale(1, beside=f' "{names[-1]}":7')]


def clients(count):
    """A client for each line, and a stale read of one more."""
    log = line(0, "commit", 5) + "".join(line(at, "commit", 5 + at, f"c{at}")
                                        for at in range(1, count))
    log += line(count, "read", 5 + count - 1 - 1, "b")
    of = "a" if count == 1 else f"c{count - 1}"
    return [], log, [
        f'audit fault: Order {count + 1}: client "b" read {count + 3}, but {count + 4} was known: '
        f'line {count} (client "{of}", commit {count + 4}) had ended 3 before line {count + 1} '
        'began']


def relayed(count):
    """Without times: each client learns from the one above, and the last reads below the first."""
    log = '{"client":"c0","commit":5}\n' + "".join(
        f'{{"client":"c{at}","learn":"c{at - 1}"}}\n' for at in range(1, count + 1))
    log += f'{{"client":"c{count}","read":4}}\n'
    return [], log, [
        f'audit fault: Order {count + 2}: client "c{count}" read 4, but 5 was known: line '
        f'{count + 1} had learnt of line 1 (client "c0", commit 5)']


def learns(count):
    """One client learns from another again and again."""
    log = '{"client":"a","commit":5}\n' + '{"client":"b","learn":"a"}\n' * count
    return [], log, [f"audit ok lines {count + 1} timed 0 reads 0 commits 1 asks 0 reports 0 "
                     f"learns {count} unreported 0"]


def unreported(count):
    """Reads of versions that no line reports, one after the other."""
    log = "".join(line(at, "read", at + 1) for at in range(count))
    return [], log, [
        f"audit ok {counted(count, pairs(count), reads=count, unreported=count)}"]


def asked_alone(count):
    """Versions that were asked for and that nobody reported."""
    log = "".join(line(at, "ask", at + 1) for at in range(count))
    return ["--summary"], log, [f"audit ok {counted(count, pairs(count), asks=count)}"]


def side_by_side(at, kind, version, client):
    """A line whose call went on side by side with all others."""
    return f'{{"client":"{client}","{kind}":{version},"began":0,"ended":9}}\n'


def drawn_again(count):
    """So many and one more draw one version."""
    log = "".join(side_by_side(at, "ask", 5, f"c{at}") for at in range(count + 1))
    other = [2, *[1] * count]
    said = [f'audit fault: Twice {at + 1}: client "c{at}" drew 5, and so did line {it} (client '
            f'"c{it - 1}", ask 5)' for at, it in enumerate(other)]
    said += [f"audit total {counted(count + 1, 0, asks=count + 1)}", total("Twice", count + 1)]
    said += [total("Twice", 1, f'client "c{at}" ') for at in range(count + 1)[:MOST]]
    return ["--all"], log, said


def stray(count):
    """Reports of a version that only another client got."""
    log = side_by_side(0, "ask", 5, "a") + side_by_side(0, "report", 5, "b") * count
    said = [f'audit fault: Stray {at + 2}: client "b" reported 5, which line 1 (client "a", ask 5) '
            'drew' for at in range(count)]
    said += [f"audit total {counted(count + 1, 0, asks=1, reports=count)}", total("Stray", count),
             total("Stray", count, 'client "b" ')]
    return ["--all"], log, said


def not_above(count):
    """Asks below what a commit had drawn: each by another client, of a version of its own."""
    most = count + 9
    log = line(0, "commit", most) + "".join(
        line(at, "ask", at, f"c{at}") for at in range(1, count + 1))
    said = [f'audit fault: NotAbove {at + 1}: client "c{at}" drew {at}, but {most} was known: line '
            f'1 (client "a", commit {most}) had ended {4 * at - 1} before line {at + 1} began'
            for at in range(1, count + 1)]
    said += [f"audit total {counted(count + 1, pairs(count + 1), commits=1, asks=count)}",
             total("NotAbove", count)]
    said += [total("NotAbove", 1, f'client "c{at}" ') for at in range(1, count + 1)[:MOST]]
    return ["--all"], log, said


def wrong(count):
    """Reads of versions that are nobody's, where all calls are logged, one above the other."""
    log = "".join(line(at, "read", at + 1) for at in range(count))
    said = [f'audit fault: Wrong {at + 1}: client "a" read {at + 1}, which nobody reported'
            for at in range(count)]
    judged = counted(count, pairs(count), reads=count, unreported=count)
    said += [f"audit total {judged}", total("Wrong", count), total("Wrong", count, 'client "a" ')]
    return ["--all", "--complete", "0"], log, said


def calls(*its):
    """A log of calls: the client, the kind, the version, and when it began and ended."""
    return "".join(f'{{"client":"{client}","{kind}":{version},"began":{began},"ended":{ended}}}\n'
                   for client, kind, version, began, ended in its)


def within(margin):
    """A read that begins by the margin behind the end of a commit, and one that begins 1 later."""
    log = calls(("a", "commit", 5, 0, 0), ("b", "read", 0, margin, margin),
                ("c", "read", 0, margin + 1, margin + 1))
    return ["--margin", str(margin)], log, [
        f'audit fault: Order 3: client "c" read 0, but 5 was known: line 1 (client "a", commit 5) '
        f'had ended {margin + 1} before line 3 began']


def at_moment(moment):
    """A read that begins and ends at a moment, behind a commit at 0."""
    log = calls(("a", "commit", 5, 0, 0), ("b", "read", 0, moment + 1, moment + 1))
    return [], log, [
        f'audit fault: Order 2: client "b" read 0, but 5 was known: line 1 (client "a", commit 5) '
        f'had ended {moment + 1} before line 2 began']


def of_version(version):
    """A read of a version behind a commit of the next."""
    log = calls(("a", "commit", version + 1, 0, 0), ("b", "read", version, 1, 1))
    return [], log, [
        f'audit fault: Order 2: client "b" read {version}, but {version + 1} was known: line 1 '
        f'(client "a", commit {version + 1}) had ended 1 before line 2 began']


def begun_with(start):
    """Reads of START, and one below, where all began with that."""
    words, log, _ = well_begun(start + 1)
    return words, log + calls(("c", "read", start, 0, 0)), [
        f'audit fault: Order 3: client "c" read {start}, but {start + 1} was known: all began with '
        f"{start + 1}"]


def not_past(margin):
    """The first of these reads alone, which is not stale: within the margin nothing is ordered."""
    log = calls(("a", "commit", 5, 0, 0), ("b", "read", 0, margin, margin))
    return ["--margin", str(margin)], log, [f"audit ok {counted(2, 0, reads=1, commits=1)}"]


def well_at_moment(moment):
    """A read at a moment of what had been committed."""
    log = calls(("a", "commit", 5, 0, 0), ("b", "read", 5, moment + 1, moment + 1))
    return [], log, [f"audit ok {counted(2, 1, reads=1, commits=1)}"]


def well_of_version(version):
    """A read of a version that had been committed."""
    log = calls(("a", "commit", version + 1, 0, 0), ("b", "read", version + 1, 1, 1))
    return [], log, [f"audit ok {counted(2, 1, reads=1, commits=1)}"]


def well_begun(start):
    """Reads of START."""
    log = calls(("a", "read", start, 0, 0), ("b", "read", start, 0, 0))
    return ["--complete", str(start)], log, [f"audit ok {counted(2, 0, reads=2)}"]


def in_ways(made, asked):
    """The same with further arguments, which change nothing where no fault stands."""
    def also(number):
        words, log, said = made(number)
        return [*words, *asked], log, said

    also.__name__ = f"{made.__name__} {' '.join(asked)}".rstrip()
    return also


READ = "LogReader::with_columns, LogReader::feed, LogReader::finish, Names::printed"
FIRST = f"{READ}, first_finding_in_threads, summary_in_threads"
ALL = f"{READ}, findings, summary"
BY_KEY = f"{ALL}, Shown::printed, printed_name"
# What is said of whole logs.
AUDITS = (
    Row(FIRST, rising, CHEAP),
    Row(FIRST, one_stale, LINES),
    Row(ALL, all_stale, LINES),
    Row(ALL, all_stale_in_json, DEAR),
    Row(f"{READ}, order_or_findings, summary", explained, LINES),
    Row(f"{BY_KEY}, order_or_findings", explained_by_key, DEAR),
    Row(BY_KEY, stale_by_key, DEAR),
    Row(f"{ALL}, Shown::printed, shown_text", stale_and_shown, DEAR),
    Row(f"{BY_KEY}, shown_text", long_names, CHEAP),
    Row(BY_KEY, long_members, ARGUMENTS),
    Row(f"{FIRST}, Shown::printed, shown_text", long_numbers, ARGUMENTS),
    Row(f"{FIRST}, Shown::printed, shown_text", long_lists, CHEAP),
    Row(FIRST, many_members, MEMBERS),
    Row(f"{FIRST}, Shown::printed", many_shown, SHOWN),
    Row(FIRST, clients, CHEAP),
    Row(FIRST, relayed, LINES),
    Row(FIRST, learns, CHEAP),
    Row(FIRST, unreported, CHEAP),
    Row(ALL, asked_alone, LINES),
    Row(ALL, drawn_again, DEAR),
    Row(ALL, stray, DEAR),
    Row(ALL, not_above, DEAR),
    Row(ALL, wrong, DEAR),
    Row(FIRST, within, MARGINS),
    Row(FIRST, at_moment, NUMBERS),
    Row(FIRST, of_version, NUMBERS),
    Row(FIRST, begun_with, COUNTS),
    *(Row(calls, in_ways(made, words), numbers)
      for made, numbers in ((not_past, MARGINS), (well_at_moment, NUMBERS),
                            (well_of_version, NUMBERS), (well_begun, COUNTS))
      for calls, words in ((FIRST, []), (ALL, ["--all"]), (BY_KEY, ["--key", "none"]))),
)


TABLES = (AUDITS,)


# ---- how the program ends


def ends(said, err=b""):
    """How the program ends that prints these lines, and before that warns of lines in these.

    That is for the first fault, or where none is told for the last line that was refused.
    """
    out = "".join(f"{it}\n" for it in said).encode()
    found = FAULT.match(out)
    if found:
        fault = b" ".join(filter(None, found.groups()))
        return Ran(FAULTY, out, err + b"fdb_audit: audit fault: " + fault + b"\n")
    return Ran(REFUSED, out, err + err.splitlines(True)[-1]) if err else Ran(OK, out, b"")


def rows(*tables, few=False):
    """The runs of the rows: name and number, the arguments, the log and what is then said.

    Or only those whose log has few lines. Where lines stand 3 apart, no margin below that changes
    what is said, but for itself.
    """
    for row in (row for table in tables for row in table):
        is_alone = row.numbers in ALONE
        for number in (it for it in row.numbers if not few or is_alone or it <= FEW):
            words, log, said = row.made(number)
            if not is_alone and row.numbers != ARGUMENTS:
                margin = f'"margin":{number % 3}'
                words = [*words, "--margin", str(number % 3)]
                said = [it.replace('"margin":0', margin) if it[:8] == '{"total"' else it
                        for it in said]
            yield f"{row.made.__name__} of {number:,}", number, words, log, said


def worked(*tables):
    """Each run says what was worked out of it."""
    for name, _, words, log, said in rows(*tables):
        yield name, fault_of(run([PROGRAM, *words], log.encode()), ends(said))


def by_model(*tables):
    """So does the model where the number is small."""
    for name, _, words, log, said in rows(*tables, few=True):
        yield name, fault_of(follow_model.judged_as(log.encode(), words), ends(said))


def of_logs(_program):
    """Audits of whole logs, however much there is."""
    yield from worked(AUDITS)


def of_logs_by_model(_program):
    """What is worked out of them, by the audit's model."""
    yield from by_model(AUDITS)
