"""What fdb_audit keeps with --keep of logs that grow, and how it goes on from that."""
import contextlib
import json
import os
import random
import tempfile
import time

from audit_lines import CALLS
from audit_logs import FAULTY, OK, PROGRAM, REFUSED
from audit_model import printed
from audit_search import text_of
from command_line import LINE, audit
from follow import (PAUSE, STALE, Growing, began_with, behind_ends, disordered, grown,
                    objects_of, random_words)
from follow_model import WATCHED
from harness import NO_MEMORY, NO_STREAM, SECONDS, Ran, apart, fault_of, read, run
from reader import HIGHEST
from shapes import text_of_lines, timed

# How many logs are stopped and started again, and how many are killed.
STOPPED, KILLED = 400, 40
# How many lines are refused in front of all others, and one of them.
SPOILT, GARBAGE = (1, 2, 64), b"garbage\n"


def lines_kept(file):
    """For how many lines of the log those stand that are kept; for none where there is no file."""
    if not os.path.exists(file):
        return 0
    with open(file, "rb") as kept:
        rows = list(map(json.loads, kept))
    numbers = [row["kept_line"] for row in rows if "kept_line" in row]
    assert numbers == sorted(set(numbers)), f"the numbers {numbers} do not rise"
    return rows[-1]["kept_lines"] if rows else 0


def faults_of(out):
    """The faults that are told, as texts; a line that was cut short tells none."""
    its = objects_of(out[:out.rfind(b"\n") + 1])[0]
    return [printed([it["fault"], it["at"]]) for it in its]


def watched_of(words, given):
    """The faults that the audit of all lines tells, of the kinds that a watch tells."""
    its = objects_of(run([PROGRAM, *words], given).out)[0]
    return [printed([it["fault"], it["at"]]) for it in its if it["fault"] in WATCHED]


def closed(dice):
    """The lines of a random log behind which two come that settle all, and words for them."""
    lines = disordered(grown(dice), dice.choice((0, 0, 2, 10)), dice)
    most = max(behind_ends(lines))
    behind = dice.choice((most, most + 1, 2 * most + 3))
    newest = max(max(line["began"], line["ended"] or 0) for line in lines)
    if newest + behind + 2 > HIGHEST:
        return closed(dice)
    versions = [line[kind] for line in lines for kind in CALLS if kind in line]
    last = {"read": max(versions), "began": newest + 1, "ended": newest + behind + 2}
    last = [{**last, "client": it} for it in ("y", "z")]
    # (a last line without its end is kept, and not told yet)
    texts = [it.rstrip(b"\n") + b"\n" for it in text_of([*lines, *last], dice).split(b"\n") if it]
    words = [*random_words(dice), "--json"]
    return texts, words, [*words, "--follow", str(behind)]


def stopped(_program):
    """Stopped at random lines and started again, it tells what one watch tells, each fault once."""
    for number in range(STOPPED):
        dice = random.Random(f"stopped {number}")
        texts, words, watching = closed(dice)
        cuts = sorted(dice.randint(0, len(texts)) for _ in range(dice.randint(1, 4)))
        with tempfile.TemporaryDirectory() as folder:
            file, told, fault = f"{folder}/kept", [], None
            for at, to in zip([0, *cuts], [*cuts, len(texts)]):
                ran = run([PROGRAM, *watching, "--keep", file], b"".join(texts[at:to]))
                told += faults_of(ran.out)
                is_so = ran.status in (OK, FAULTY) or to == 0
                fault = fault or (None if is_so and lines_kept(file) == to else f"{ran} at {to}")
        wanted = watched_of(words, b"".join(texts))
        is_so = sorted(told) == sorted(wanted)
        fault = fault or (None if is_so else f"it tells {told}, and the audit {wanted}")
        yield f"log {number}", fault and f"{fault}, of {texts} cut at {cuts} with {watching}"


def killed(_program):
    """Killed at random moments, and started again with the lines behind those that it has kept, it
    tells each fault at least once, and none falsely."""
    for number in range(KILLED):
        dice = random.Random(f"killed {number}")
        texts, words, watching = closed(dice)
        with tempfile.TemporaryDirectory() as folder:
            file, told = f"{folder}/kept", set()
            while lines_kept(file) < len(texts):
                with Growing(*watching, "--keep", file) as growing:
                    for text in texts[lines_kept(file):]:
                        growing.started.stdin.write(text)
                        time.sleep(dice.choice((0, 0, PAUSE)))
                        if dice.random() < 1 / len(texts):
                            growing.started.kill()
                            break
                    growing.started.stdin.close()
                    told.update(faults_of(growing.end().out))
        wanted = set(watched_of(words, b"".join(texts)))
        fault = None if told == wanted else f"it tells {told}, and the audit {wanted}"
        yield f"log {number}", fault and f"{fault}, of {texts} with {watching}"


def kept(_program):
    """What is kept is a log; what is none that was kept, or cannot be read or written, is told."""
    stale = text_of_lines(STALE).encode()
    with tempfile.TemporaryDirectory() as folder:
        file, words = f"{folder}/kept", ["--follow", "25", "--show", "note,kept_line"]
        ran = run([PROGRAM, *words, "--keep", file], stale)
        yield "a fault that is open is not told", fault_of(ran, Ran(OK, ran.out, b""))
        with open(file, "rb") as log:
            lines = log.read()
        yield "it is a log", fault_of(run([PROGRAM], lines), run([PROGRAM], stale))
        late = [timed("read", 5, 90, 99, "c"), timed("read", 5, 90, 99, "a")]
        late = text_of_lines(late).encode()
        ran = run([PROGRAM, *words, "--keep", file], late)
        yield "it is told later", began_with(ran.out, b"audit fault: Order 2: ")
        for name, given, why in (
            ("half a line", lines[:-3], "NotJson 2: no JSON"),
            ("a line of another log", lines + late, "NotKept 3: no line as it is kept"),
            ("a line twice", lines + lines, "NotKept 3: no line as it is kept"),
            ("no JSON", b"nil\n", "NotJson 1: no JSON"),
        ):
            with open(file, "wb") as log:
                log.write(given)
            by = "" if name == "no JSON" else made_by(*words)
            ran = run([PROGRAM, *words, "--keep", file], late)
            yield name, fault_of(ran, not_kept(why, file, by))
        yield from failing(folder, words, stale, lines)
    wanted = audit(None).words_refused()
    yield "of a log that is not followed", fault_of(run([PROGRAM, "--keep", "kept"], LINE), wanted)


def failing(folder, words, given, lines):
    """What fails of the file is told, and in a second line which file it is: one that cannot be
    read, or written, or where nothing can be made or locked beside it."""
    os.mkdir(f"{folder}/held.lock")
    os.mkdir(f"{folder}/new.new")
    os.symlink("/dev/full", f"{folder}/full.new")
    os.mkdir(f"{folder}/odd \u202e")
    for name, path, failed in (
        ("a folder", f"{folder}/odd \u202e", "reading"), ("full", f"{folder}/full", "writing"),
        ("no folder", f"{folder}/none/kept", "writing"), ("new", f"{folder}/new", "writing"),
        ("a folder that is to be locked", f"{folder}/held", "writing"),
    ):
        for more in ([], ["--json"]):
            ran = run([PROGRAM, *words, *more, "--keep", path], given)
            yield f"{name}, {more}", fault_of(ran, failed_of(failed, path, "kept"))
    # (a file that was there is as it was)
    file = f"{folder}/full"
    with open(file, "wb") as log:
        log.write(lines)
    ran = run([PROGRAM, *words, "--keep", file], text_of_lines(told_at(90)).encode())
    # (what was told before stands)
    is_told = ran.out.startswith(b"audit fault: Order 2: ")
    wanted = failed_of("writing", file, "kept")
    fault = fault_of(ran, Ran(wanted.status, ran.out, wanted.err))
    yield "full, later", fault if is_told else f"{ran}"
    with open(file, "rb") as log:
        yield "it is as it was", None if log.read() == lines else "it is another"


def failed_of(failed, file, how):
    """How a watch ends whose file fails."""
    file = file.replace("\u202e", "\\u202e")
    said = f"fdb_audit: {failed} failed\nfdb_audit: {how} in {file}\n"
    return Ran(NO_STREAM, b"", said.encode())


def locked_of(file):
    """How a watch ends whose file another one has."""
    return failed_of("locking", file, "another watch keeps")


# How many watches begin on one file at once, and how often.
AT_ONCE, BEGUN = 8, 5


def told_at(at):
    """Lines of which the second is stale, and is told at the third where nothing is waited for."""
    return (timed("commit", at + 5, at, at + 10, "a"), timed("read", 1, at + 20, at + 30, "b"),
            timed("read", at + 5, at + 29, at + 30, "a"))


def alone(_program):
    """One watch at a time keeps in a file: a second one is refused, and the first goes on. Behind
    one that ended or was killed the next goes on at once."""
    words = ["--follow", "0", "--keep"]
    with tempfile.TemporaryDirectory() as folder:
        os.symlink(folder, f"{folder}/self")
        file, other = f"{folder}/kept", f"{folder}/self/kept"
        for at, is_killed in ((0, False), (100, True), (200, True), (300, False)):
            with Growing(*words, file) as first:
                # (once it has told something, it has begun)
                first.write(*told_at(at))
                yield f"{at}, it tells", began_with(first.told(), b"audit fault: Order ")
                for path in (file, other):
                    ran = run([PROGRAM, *words, path], text_of_lines(told_at(at)).encode())
                    yield f"{at}, a second one at {path}", fault_of(ran, locked_of(path))
                ran = run([PROGRAM, *words, f"{file}.{at}"], LINE)
                yield f"{at}, another file", None if ran.status == OK else f"{ran}"
                if is_killed:
                    first.started.kill()
                    first.started.wait()
                else:
                    before = lines_kept(file)
                    first.write(timed("read", at + 5, at + 60, at + 70, "a"))
                    first.started.stdin.close()
                    is_on = first.end().status == FAULTY and lines_kept(file) > before
                    yield f"{at}, the first goes on", None if is_on else "it does not keep"
            ran = run([PROGRAM, *words, file], b"")
            yield f"{at}, the next", None if ran.status in (OK, REFUSED) else f"{ran}"


def at_once(_program):
    """Of many watches that begin on one file at once, one keeps in it, and the others end."""
    for at in range(BEGUN):
        with tempfile.TemporaryDirectory() as folder, contextlib.ExitStack() as stack:
            file = f"{folder}/kept"
            words = ["--follow", "0", "--keep", file]
            all_of = [stack.enter_context(Growing(*words)) for _ in range(AT_ONCE)]
            late = time.monotonic() + SECONDS
            left = all_of
            while len(left) > 1 and time.monotonic() < late:
                time.sleep(PAUSE)
                left = [it for it in all_of if it.started.poll() is None]
            yield f"{at}, they are left", None if len(left) == 1 else f"{len(left)} go on"
            for it in all_of:
                if it not in left:
                    yield f"{at}, one is refused", fault_of(it.end(), locked_of(file))
            for it in left:
                it.write(*STALE)
                it.started.stdin.close()
                ran = it.end()
                is_so = ran.status == OK and lines_kept(file) == len(STALE)
                yield f"{at}, one goes on", None if is_so else f"{ran}"


def made_by(*words, margin=0):
    """By which arguments lines are kept, as a refusal says it: of `--follow`, and what is shown."""
    asked = dict(zip(words[::2], words[1::2]))
    text = f"--follow {asked['--follow']} --margin {margin}"
    text += f" --key {json.dumps(asked['--key'])}" if "--key" in asked else ""
    text += "".join(f" --show {json.dumps(it)}" for it in asked.get("--show", "").split(",") if it)
    text += f" --position {json.dumps(asked['--position'])}" if "--position" in asked else ""
    return f" by {json.dumps(text)}"


def not_kept(why, file, by):
    """How a watch ends whose file has lines that are refused."""
    said = f"fdb_audit: kept lines refused: {why}\nfdb_audit: kept in {file}{by}\n"
    return Ran(1, b"", said.encode())


def kept_by(_program):
    """Lines that were kept by other arguments are refused, and it is said by which they were."""
    stale, why = text_of_lines(STALE).encode(), "NotKept 1: no line as it is kept"
    words = ["--follow", "25", "--key", "k", "--show", "note", "--position", "n"]
    others = (["--follow", "26", *words[2:]], [*words, "--margin", "1"], [*words[:2], *words[4:]],
              [*words[:3], "other", *words[4:]], [*words[:4], *words[6:]],
              [*words[:5], "n,note", *words[6:]], words[:6])
    with tempfile.TemporaryDirectory() as folder:
        file = f"{folder}/kept"
        run([PROGRAM, *words, "--keep", file], stale)
        for other in others:
            ran = run([PROGRAM, *other, "--keep", file], stale)
            yield f"{other}", fault_of(ran, not_kept(why, file, made_by(*words)))
        ran = run([PROGRAM, *words, "--json", "--all", "--keep", file], b"")
        yield "what is printed may be another", None if b"NotKept" not in ran.err else f"{ran}"
        with open(file, "rb") as log:
            rows = [json.loads(it) for it in log]
        del rows[0]["kept_by"]
        with open(file, "w", encoding="ascii") as log:
            log.writelines(f"{json.dumps(it)}\n" for it in rows)
        ran = run([PROGRAM, *words, "--keep", file], stale)
        yield "it is not said", fault_of(ran, not_kept(why, file, ""))
    wanted = audit(None).words_refused()
    for words in (["--position", "n"], ["--follow", "5", "--position", "n"]):
        yield f"only {words}", fault_of(run([PROGRAM, *words], LINE), wanted)


def placed(_program):
    """What the last line has in a member is kept, however the log is cut, and where it goes on."""
    line = lambda at, more: (f'{{"client":"a","commit":{at},"began":{at},"ended":{at}{more}}}\n')
    some = [line(at, f',"at":{{"n":[{at}]}}') for at in range(1, 4)]
    half, longer = line(4, ',"at":"4"')[:-1], line(4, ',"note":"%s","at":4' % ("n" * 100_000))
    for name, texts, wanted in (
            ("three lines", some, {"n": [3]}), ("none has it", [line(1, "")], None),
            ("the last has not", [*some, line(9, "")], None),
            ("the last is refused", [*some, "{\n"], None), ("no end", [*some, half], "4"),
            ("an end later", [*some, half, "\n"], "4"), ("in pieces", [*some, *half, "\n"], "4"),
            ("longer than a read", [*some, longer], 4), ("a null", [line(1, ',"at":null')], None),
            ("a text", [line(1, ',"at":"\\u202e"')], "\u202e")):
        with tempfile.TemporaryDirectory() as folder:
            words = [PROGRAM, "--follow", "9", "--position", "at", "--keep", f"{folder}/kept"]
            apart(words, [it.encode() for it in texts])
            yield name, place_fault(f"{folder}/kept", wanted)
            run(words, b"")
            yield f"{name}, and nothing more", place_fault(f"{folder}/kept", wanted)
            run(words, line(20, ',"at":20').encode())
            yield f"{name}, and one more", place_fault(f"{folder}/kept", 20)


def place_fault(file, wanted):
    """What is wrong with where the log stands by a file, or None."""
    with open(file, "rb") as log:
        first, *others = map(json.loads, log)
    is_so = first.get("kept_position") == wanted and not any("kept_position" in it for it in others)
    return None if is_so else f"{first} in place of {wanted}"


# ---- where no line is kept, since all were refused


def none_kept(count, words, more=""):
    """What a file has where none of so many lines is kept."""
    by = made_by(*words).removeprefix(" by ")
    return f'{{"kept_lines":{count},"kept_by":{by}{more}}}\n'.encode()


def refused_at(*numbers):
    """What is said of garbage at these numbers."""
    return "".join(f"fdb_audit: logs refused: NotJson {it}: no JSON\n" for it in numbers).encode()


def none_of(count, err):
    """How a watch ends that took no line, and refused so many."""
    out = f"audit ok lines 0 reads 0 commits 0 asks 0 reports 0 refused {count} early 0\n"
    return Ran(REFUSED, out.encode(), err)


def file_fault(file, wanted):
    found = read(file) if os.path.exists(file) else None
    return None if found == wanted else f"it has {found} in place of {wanted}"


def spoilt_first(_program):
    """Of lines that are all refused the file has how many they are, and lines that come later are
    numbered on from there."""
    for count in SPOILT:
        for more in ([], ["--position", "at"]):
            with tempfile.TemporaryDirectory() as folder:
                words, file = ["--follow", "0", *more], f"{folder}/kept"
                for name, fault in spoilt_in(words, file, count):
                    yield f"{count} lines {more}, {name}", fault


def spoilt_in(words, file, count):
    watch, kept = [PROGRAM, *words, "--keep", file], none_kept(count, words)
    ran = run(watch, GARBAGE * count)
    yield "at first", fault_of(ran, none_of(count, refused_at(*range(1, count + 1), count)))
    yield "the file", file_fault(file, kept)
    ran = run(watch, b"")
    yield "no more", fault_of(ran, none_of(0, b"fdb_audit: logs refused: Empty: no line\n"))
    yield "the file, no more", file_fault(file, kept)
    ran = run([PROGRAM, "--follow", "1", *words[2:], "--keep", file], GARBAGE)
    wanted = not_kept("NotKept 1: no line as it is kept", file, made_by(*words))
    yield "by others", fault_of(ran, wanted)
    yield "the file, by others", file_fault(file, kept)
    # (a line without its end counts where the log ends)
    ran, at = run(watch, b"{"), count + 1
    yield "one more", fault_of(ran, none_of(1, refused_at(at, at)))
    yield "the file, one more", file_fault(file, none_kept(at, words))
    ran = run(watch, text_of_lines(told_at(0)).encode() + GARBAGE)
    # The commit ended at 10, the read began at 20.
    out = (f'audit fault: Order {at + 2}: client "b" read 1, but 5 was known: line {at + 1} '
           f'(client "a", commit 5) had ended 10 before line {at + 2} began\n')
    err = refused_at(at + 4) + f"fdb_audit: audit fault: Order {at + 2}\n".encode()
    yield "a stale read", fault_of(ran, Ran(FAULTY, out.encode(), err))
    found = lines_kept(file)
    yield "the file, a stale read", None if found == at + 4 else f"it stands for {found} lines"
    ran = run(watch, text_of_lines([timed("read", 5, 1, 2, "c")]).encode())
    why = f"fdb_audit: logs refused: Early {at + 5}: it began before what had been settled"
    is_so = ran.status == REFUSED and ran.err.splitlines()[-1:] == [why.encode()]
    yield "an early line", None if is_so else f"{ran}"


def spoilt_and_killed(_program):
    """Killed before a line is kept, it goes on from the file that it had, if there was one."""
    words, lines = ["--follow", "0"], [text_of_lines([it]).encode() for it in told_at(0)]
    for count in SPOILT:
        with tempfile.TemporaryDirectory() as folder:
            file = f"{folder}/kept"
            watch = [PROGRAM, *words, "--keep", file]
            for is_first in (True, False):
                with Growing(*watch[1:]) as growing:
                    growing.started.stdin.write(GARBAGE * count)
                    said = growing.started.stderr.readline()
                    growing.started.kill()
                    growing.started.wait()
                wanted = refused_at(1 if is_first else count + 1)
                yield f"{count} lines, it tells", None if said == wanted else f"{said}"
                wanted = None if is_first else none_kept(count, words)
                yield f"{count} lines, the file", file_fault(file, wanted)
                run(watch, GARBAGE * count if is_first else b"")
            with Growing(*watch[1:]) as growing:
                growing.write(*told_at(0))
                wanted = f"audit fault: Order {count + 2}: ".encode()
                yield f"{count} lines, a stale read", began_with(growing.told(), wanted)
                growing.started.kill()
                growing.started.wait()
            # (the file may have been written, or not)
            rest = b"".join(lines[lines_kept(file) - count:])
            ran, found = run(watch, rest), lines_kept(file)
            is_so = ran.status in (OK, FAULTY) and found == count + len(lines)
            yield f"{count} lines, it goes on", None if is_so else f"{ran}, {found} lines"


def none_kept_files(_program):
    """A file that keeps no line: where its last line stands, and how one is refused that is not as
    it was written."""
    with tempfile.TemporaryDirectory() as folder:
        file, words = f"{folder}/placed", ["--follow", "9", "--key", "k", "--position", "at"]
        watch = [PROGRAM, *words, "--keep", file]
        line = b'{"client":"a","read":1,"began":1,"ended":2,"k":[],"at":7}\n'
        err = b"fdb_audit: logs refused: BadMember 1 key: no name\n"
        placed = none_kept(1, words, ',"kept_position":7')
        yield "no key", fault_of(run(watch, line), none_of(1, 2 * err))
        yield "no key, the file", file_fault(file, placed)
        run(watch, b"")
        yield "no key, and no more", file_fault(file, placed)
        run(watch, GARBAGE)
        yield "no key, and one more", file_fault(file, none_kept(2, words))
        yield from wrong_files(f"{folder}/kept", ["--follow", "0"], line)


def wrong_files(file, words, line):
    watch, by, one = [PROGRAM, *words, "--keep", file], made_by(*words), none_kept(1, words)
    no_call = "NoCall 1: no read, commit, ask, report or learn"
    other, half = "NotKept 1: no line as it is kept", "NotJson 1: no JSON"
    for name, text, why, by_what in (
        ("a text", none_kept('"1"', words), no_call, by),
        ("a null", none_kept("null", words), no_call, by),
        ("below 0", none_kept(-1, words), no_call, by),
        ("no whole number", none_kept(1.5, words), no_call, by),
        ("2^64", none_kept(2**64, words), no_call, by),
        ("2^64 - 1", none_kept(2**64 - 1, words), other, by),
        ("no number", one.replace(b'"kept_lines":1,', b""), no_call, by),
        ("two lines", one + one, no_call, by),
        ("by nobody", b'{"kept_lines":1}\n', other, ""),
        ("without its end", one[:-1], half, by),
        ("half of it", one[:-3], half, ""),
        ("a list", b"[1]\n", no_call, ""),
        ("with a call", one[:-2] + b"," + line[1:], other, by),
        ("a line of a log", line, other, ""),
    ):
        with open(file, "wb") as log:
            log.write(text)
        yield name, fault_of(run(watch, GARBAGE), not_kept(why, file, by_what))
        yield f"{name}, the file", file_fault(file, text)
    for name, text, number in (
        ("an empty file", b"", 1), ("none was read", none_kept(0, words), 1),
        ("the last number", none_kept(2**64 - 3, words), 2**64 - 2),
    ):
        with open(file, "wb") as log:
            log.write(text)
        ran = run(watch, GARBAGE)
        yield name, fault_of(ran, none_of(1, refused_at(number, number)))
        yield f"{name}, the file", file_fault(file, none_kept(number, words))
    yield "no number more", fault_of(run(watch, GARBAGE), Ran(NO_MEMORY, None, None))
