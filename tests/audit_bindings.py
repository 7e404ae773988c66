"""Audits and watches of the package for Python, by bytes, pieces and calls, against the model."""
import json
import random
import re
import tempfile

import audit_logs
import bindings
import follow
from audit_lines import lines_of, refusal
from audit_model import Log, Reason, Witness, options_of, printed
from audit_right import why_wrong
from audit_search import text_of
from follow_model import SAID_LAST, asked_of, judged_as, name_in
from follow_model import why_wrong as why_wrong_of_watch
from harness import Ran, fault_of, run
from kept_logs import closed
from reader import Refused

# How many logs are watched on from what was kept.
KEPT = 200


def named(member):
    """A name of the package in the words of a log's text: NOT_ABOVE is NotAbove."""
    return member.name.title().replace("_", "")


def worked(_program):
    """With arguments `python -m fdb_read_version` writes what a hand calculation gives."""
    for name, given, words, out in [*audit_logs.worked_cases(), *audit_logs.example_cases()]:
        if words:
            ran = bindings.python(["-m", "fdb_read_version", *words, "-"], given)
            yield name, fault_of(ran, audit_logs.ended_with(out)._replace(err=b""))
    for name, given, words, out in audit_logs.worked_cases(follow.WORKED):
        ran = bindings.python(["-m", "fdb_read_version", *words, "-"], given)
        wanted = judged_as(given, words)._replace(out=out, err=None)
        if "--summary" in words:
            # (that, the package has not; argparse has this status)
            wanted = wanted._replace(status=2, out=b"")
        yield f"{name}, followed", fault_of(ran, wanted)


def random_audits(_program):
    """Random logs are judged as by the model, also by key, with reasons that are true of them.

    Besides, each is asked for in turn what the program is, and also for what that cannot be.
    """
    for number, (name, given, words) in enumerate(audit_logs.random_cases(audit_logs.RANDOM)):
        words, changed = [*words, *audit_logs.ASKED[number % len(audit_logs.ASKED)]], {}
        if number % 5 == 0:
            changed = {"all": number % 2 == 0, "totals": number % 3 == 0}
        fault = fault_of_audit(given, words, changed)
        yield name, fault and f"{fault}, of {given} with {words}, {changed}"


def fault_of_audit(given, words, changed):
    library, options = bindings.package(), options_of(words)._replace(**changed)
    asked = {"complete": options.complete, "margin": options.margin}
    names = {"key": options.key, "show": options.show}
    wanted = {it: getattr(options, it) for it in ("all", "history", "totals", "json")}
    try:
        log = Log(lines_of(given, options.key), options)
    except Refused as why:
        return fault_of_refused(lambda: library.audit_text(given, **asked, **names, **wanted), why)
    found = library.audit(given, **asked, key=options.key)
    wrong = why_wrong_found(log, found)
    if wrong:
        return wrong
    text = library.audit_text(given, **asked, **names, **wanted)
    with library.Audit(**asked, **names, **wanted) as pieces:
        for at in range(0, len(given), 7):
            pieces.push(given[at : at + 7])
        ended, by_pieces = pieces.end(), (pieces.text(), pieces.faults())
    if by_pieces != (text, found):
        return f"{by_pieces} by pieces, in place of {text!r} {found}"
    wrong = why_wrong(given, words, as_program(ended, text, found), **changed)
    return wrong or fault_of_calls(log, found, text, {**asked, **wanted})


def why_wrong_found(log, found):
    """The faults are those of the model, with true reasons, and so late."""
    library, faults = bindings.package(), log.faults()
    at = [(fault, case.at[k]) for case, fault, k in faults]
    if [(named(it.kind), it.place) for it in found] != at:
        return f"{found} in place of {at}"
    for it, (case, fault, k) in zip(found, faults):
        true = [placed(reason, case.at) for reason in case.reasons(fault, k)]
        first, by = case.late(fault, k) or (None, None)
        late = None if first is None else library.Late(case.at[first], by)
        if reason_of(it) not in true or it.late != late:
            return f"{it}, but what is true is {true}, {late}"
    return None


def fault_of_refused(call, why):
    """What is wrong with a call that is to refuse a log, or None."""
    try:
        said = f"it gives {call()}"
    except bindings.package().LogRefused as it:
        said = said_of(it)
    return None if said == f"fdb_audit: logs refused: {why}\n" else f"{said!r}"


def as_program(status, text, found):
    """How the program would end that is told this of a log."""
    if status == bindings.package().Status.OK:
        return Ran(audit_logs.OK, text.encode(), b"")
    first = f"fdb_audit: audit fault: {named(found[0].kind)} {found[0].place + 1}\n"
    return Ran(audit_logs.FAULTY, text.encode(), first.encode())


def fault_of_calls(log, found, text, asked):
    """What is wrong with the audit of the same lines as calls, which have no members."""
    if log.options.key is not None or log.options.show:
        return None
    library, (calls, numbers) = bindings.package(), calls_of(log.lines)
    by_calls = library.audit(calls, complete=asked["complete"], margin=asked["margin"])
    if by_calls != found:
        return f"by calls {by_calls} in place of {found}"
    by_calls = library.audit_text(calls, **asked)
    return None if by_calls == renamed(text, numbers) else f"{by_calls!r} by calls, for {text!r}"


def calls_of(lines):
    """The lines of a log as calls, whose clients have numbers, and these by name."""
    library, numbers = bindings.package(), {}
    for line in lines:
        if line.client is not None:
            numbers.setdefault(line.client, len(numbers))
    made = []
    for line in lines:
        who = {"client": numbers.get(line.client), "began": line.began, "ended": line.ended}
        is_learn = line.kind == "learn"
        what = {"teller": numbers[line.value]} if is_learn else {"version": line.value}
        made.append(library.Call(library.Member[line.kind.upper()], **what, **who))
    return made, numbers


def renamed(text, numbers):
    """A text whose clients are named by their numbers."""
    for name, number in numbers.items():
        for before in ("client ", '"client":', '"learn":'):
            text = text.replace(f"{before}{printed(name)}", f"{before}{number}")
    return text


def placed(reason, at):
    """A reason whose lines are those of the log, and not of a key."""
    place = lambda k: None if k is None else at[k]
    by = reason.by and Witness(place(reason.by.place), reason.by.means, place(reason.by.teller))
    return reason._replace(other=place(reason.other), by=by)


def reason_of(fault):
    """What a fault of the package says, in words of the model."""
    known, by = fault.known, None
    if known and named(known.means) != "Start":
        by = Witness(known.place, named(known.means).lower(), known.learnt)
    return Reason(named(fault.reason).lower(), fault.other, known and known.version, by)


def refused_audits(_program):
    """Logs are refused at the line, and for the reason, for which the program refuses them."""
    library = bindings.package()
    for call in (library.audit, library.audit_text):
        for name, given, wanted in audit_logs.refusals():
            why = wanted.err.decode().removeprefix("fdb_audit: logs refused: ").rstrip("\n")
            yield f"{name}, {call.__name__}", fault_of_refused(lambda: call(given), why)
        for above, line, why in audit_logs.KEYED:
            fault = fault_of_refused(lambda: call(above + line, key="k"), refusal(2, why))
            yield f"{line} below {above}, {call.__name__} by key", fault


def said_of(refused):
    """What the program says of a log that is refused, or of which lines came early."""
    if refused.status == bindings.package().Status.UNJUDGED:
        return f"fdb_audit: {SAID_LAST.format(refused.line)}\n"
    member = f" {refused.member.name.lower()}" if refused.member else ""
    why = refusal(refused.line, f"{named(refused.status)}{member}")
    return f"fdb_audit: logs refused: {why}\n"


def random_watches(_program):
    """Of random logs in pieces a watch tells what the audit of all lines tells, each once.

    Of every fourth log some lines are refused; of every fifth some may come early.
    """
    for number in range(follow.RANDOM):
        dice, is_early = random.Random(f"watched {number}"), number % 5 == 4
        by = 30 if is_early else dice.choice((0, 0, 2, 10))
        lines = follow.disordered(follow.grown(dice), by, dice)
        given = text_of(lines, dice)
        given = follow.with_refused(given, dice) if number % 4 == 3 else given
        most = max(follow.behind_ends(lines))
        behind = dice.randint(0, most // 2) if is_early else most + dice.randint(0, 2)
        words = [dice.choice(("--all", "--json")), "--margin", str(dice.choice((0, 0, 1, 5)))]
        words += ["--key", dice.choice(("key", "client"))] * (dice.random() < 0.3)
        words += ["--show", dice.choice(("note", "none,note"))] * (dice.random() < 0.3)
        words += ["--follow", str(behind)]
        early = sum(it > behind for it in follow.behind_ends(lines))
        fault = why_wrong_of_watch(given, words, watched(given, words, dice), early, False)
        yield f"log {number}", fault and f"{fault}, of {given} with {words}"


def watched(given, words, dice):
    """How the program would end that tells what a watch does of a text in pieces."""
    library, (options, behind) = bindings.package(), asked_of(words)
    asked = {"margin": options.margin, "totals": options.totals, "json": options.json}
    cuts = sorted(dice.randint(0, len(given)) for _ in range(dice.randint(0, 4)))
    with library.Watch(behind, key=options.key, show=options.show, **asked) as watch:
        out = err = ""
        for at, to in zip([0, *cuts], [*cuts, len(given)]):
            watch.push(given[at:to])
            out += watch.tell(dice.random() < 0.7)
            err += watch.warnings()
        try:
            status, last = audit_logs.OK, ""
            if watch.end() == library.Status.FAULT:
                status, last = audit_logs.FAULTY, None
        except library.LogRefused as it:
            status, last = audit_logs.REFUSED, said_of(it)
        out, err = (out + watch.text()).encode(), err + watch.warnings()
    if last is None:
        kind, line = name_in(audit_logs.FAULT.match(out))
        last = f"fdb_audit: audit fault: {kind} {line}\n"
    return Ran(status, out, (err + last).encode())


# ---- watches that are kept, and go on


def kept_watches(_program):
    """Random watches that are kept at line ends, each by the package or the program, and go on.

    Whichever keeps and whichever goes on, they keep the same bytes, count the same, and tell what
    one watch of the package tells, each fault once.
    """
    for number in range(KEPT):
        dice = random.Random(f"kept {number}")
        texts, _, words = closed(dice)
        cuts = sorted(dice.randint(0, len(texts)) for _ in range(dice.randint(1, 3)))
        pieces = [b"".join(texts[at:to]) for at, to in zip([0, *cuts], [*cuts, len(texts)])]
        wanted = Watched(words).told([b"".join(texts)], None)
        for by_turns in (False, True):
            found = Watched(words).told(pieces, dice if by_turns else None)
            fault = None if sorted(found) == sorted(wanted) else f"{found} in place of {wanted}"
            yield f"log {number}, {by_turns}", fault and f"{fault}, of {pieces} with {words}"


class Watched:
    """Watches that go on from one another, as these arguments of the program ask for them."""

    def __init__(self, words):
        options, self.behind = asked_of(words)
        self.asked = {"margin": options.margin, "key": options.key, "show": options.show}
        self.words, self.kept = words, ""

    def told(self, pieces, dice):
        """All faults that they tell; with dice some of the watches are the program's."""
        with tempfile.TemporaryDirectory() as folder:
            self.file = f"{folder}/kept"
            found = []
            for piece in pieces:
                by_program = dice is not None and dice.random() < 0.5
                found += self.by_program(piece) if by_program else self.by_package(piece)
        return found

    def by_package(self, piece):
        library = bindings.package()
        with library.Watch.restore(self.kept, self.behind, json=True, **self.asked) as watch:
            watch.push(piece)
            told, self.counts = faults_in(watch.tell()), watch.counts()
            self.kept = watch.keep()
        return told

    def by_program(self, piece):
        """So does the program; what the package would have kept and counted is the same.

        But the program settles where it stops: so each line that it keeps says up to when, and
        where that is later it may keep fewer.
        """
        self.write(self.kept)
        own, to = self.by_package(piece), certain_to(self.counts, self.behind)
        kept = settled(self.kept, to)
        ran = run([audit_logs.PROGRAM, *self.words, "--keep", self.file], piece)
        with open(self.file, encoding="utf-8") as file:
            self.kept = file.read()
        said = [json.loads(it) for it in ran.out.splitlines() if it.startswith(b'{"watched"')][-1]
        counted = {"judged": 0, "ahead": 0, **said["watched"]}
        is_fewer = to > self.counts.settled_to and set(bare(self.kept)) < set(bare(kept))
        if kept != self.kept and not is_fewer or counted != self.counts._asdict():
            return [f"{kept} in place of {self.kept}, or {self.counts} of {counted}"]
        told = faults_in(ran.out.decode())
        # (it may look once more, in between)
        return told if sorted(told) == sorted(own) else [f"{own} in place of {told}"]

    def write(self, kept):
        with open(self.file, "w", encoding="utf-8") as file:
            file.write(kept)


def certain_to(counts, behind):
    """Up to when all is told once a watch has settled where it stops."""
    return max(counts.settled_to, counts.newest_end - behind)


def settled(kept, to):
    """A kept text of which each line says that all was told up to this moment."""
    said = r'("kept_lines":\d+)(?!\d)(?:,"kept_settled":\d+)?'
    return re.sub(said, rf'\1,"kept_settled":{to}', kept)


def bare(kept):
    """The lines of a kept text, without what the first says of all."""
    return [re.sub(',"kept_clients":.*', "}", line) for line in kept.splitlines()]


def faults_in(text):
    """The faults that are told, as texts."""
    found = [json.loads(it) for it in text.splitlines()]
    return [printed([it["fault"], it["at"]]) for it in found if type(it.get("fault")) is str]
