"""Lines that have their own numbers: by which fdb_audit tells them, and which it refuses."""
import random

from audit_lines import MOST_BYTES, NUMBER_BYTES
from audit_logs import OK, PROGRAM, line_with, refused_at, without_times
from audit_right import why_wrong
from audit_search import random_lines, random_words, text_of
from command_line import audit
from harness import fault_of, run
from reader import HIGHEST

# How many random logs are told by numbers, of which member, and what is written.
RANDOM, MEMBERS = 400, ("split_line", "offset", "key", "æ \"n\"", "")
WRITTEN = ([], ["--all"], ["--summary"], ["--json"], ["--all", "--summary"])
# Numbers that lines have, one after another, and the first that is refused (0: none).
ROWS = (
    (("0",), 0), (("0", "1"), 0), (('"007"', "8"), 0), ((str(HIGHEST),), 0), (("1", "3"), 0),
    (("1", "1"), 2), (("2", "1"), 2), (("0", '"0"'), 2), (("1", "2", "2", "9"), 3),
    ((str(HIGHEST), str(HIGHEST)), 2), ((str(HIGHEST + 1),), 1), (("1", str(HIGHEST + 1)), 2),
    ((None,), 1), (("1", None), 2), (("5", None, "6"), 2), (("null",), 1), (("1.0",), 1),
    (("-1",), 1), (('"1a"',), 1), (('""',), 1), (("[1]",), 1), (("true",), 1),
)


def with_numbers(lines, member, dice):
    """The lines with numbers that rise: as a text or not, the first member or the last."""
    number = dice.choice((0, 1, 2**32, HIGHEST - 1_000))
    for line in lines:
        own = {member: number if dice.random() < 0.7 else f"{number:03}"}
        yield {**line, **own} if dice.random() < 0.5 else {**own, **line}
        number += dice.choice((1, 1, 2, 50))


def numbered(_program):
    """Each line is told by its own number, whatever is asked for beside."""
    dice = random.Random(11)
    for at in range(RANDOM):
        member = dice.choice(MEMBERS)
        given = text_of(list(with_numbers(random_lines(dice), member, dice)), dice)
        words = [*random_words(dice), *WRITTEN[at % len(WRITTEN)], "--numbers", member]
        fault = why_wrong(given, words, run([PROGRAM, *words], given))
        yield f"log {at}", fault and f"{fault}, of {given} with {words}"


def refused(_program):
    """One that is missing, no number or not above the one before; and what suits no numbers."""
    for make in (line_with, without_times):
        for numbers, wrong in ROWS:
            # With a space behind the colon a line has not the form that is read fast.
            for own, gap in (("n", ""), ("n", " ")):
                lines = [make(**{own: it if it is None else gap + it}) for it in numbers]
                ran = run([PROGRAM, "--numbers", "n"], b"\n".join(lines))
                fault = fault_of(ran, refused_at(wrong, "BadMember numbers")) if wrong else None
                fault = fault or (f"{ran}" if not wrong and ran.status != OK else None)
                yield f"{numbers} {make.__name__}{gap}", fault
    for more, most in ((NUMBER_BYTES, True), (NUMBER_BYTES + 1, False), (0, True), (1, False)):
        words = ["--numbers", "split_line"] if more >= NUMBER_BYTES else []
        line = line_with(note='""', split_line="7")
        line = line.replace(b'""', b'"%s"' % (b"n" * (MOST_BYTES + more - len(line))))
        ran = run([PROGRAM, *words], line)
        fault = None if ran.status == OK else f"{ran}"
        yield f"{more} bytes more", fault if most else fault_of(ran, refused_at(1, "TooLong"))
    unfit, line = audit(None).words_refused(), line_with(n="1")
    for words in (["--follow", "1"], ["--history"], ["--history", "--all"], ["--numbers", "n"]):
        fault = fault_of(run([PROGRAM, "--numbers", "n", *words], line), unfit)
        yield f"beside {words}", fault
    for words in (["--split", "2", "--into", "/none", "--key", "key"], ["--follow=1"]):
        yield f"in {words}", fault_of(run([PROGRAM, *words, "--numbers=n"], line), unfit)
