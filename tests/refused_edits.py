"""Whether edits were refused for what they turn, by what rt says of each.

    python3 tests/refused_edits.py FILE      (FILE: what rt ci printed)

The prover has to refuse each edit of crates/NAME/must-fail/. That shows something only where a goal
was left without a proof: what a clause ensures, requires or keeps, or a condition that an operator
has. It shows nothing where the borrow checker does not cover the edited code, a proof cites what
went away, a loop may not end, or a limit stopped the prover. rt says of each edit, tried now or by
an earlier run, the first thing that the prover said, cut at 160 characters; of code that is not
covered it says nothing more than that it was refused.

There is a line for each edit that was not refused for a goal. The last line is 'N passed, M
failed'; the status is 1 where M > 0.
"""
import re
import sys

sys.dont_write_bytecode = True

from edits import TRIED, crates, edits_in

LINE = re.compile(r"^rt: must-fail (\w+)/(\S+)\.edit: (.*)$", re.MULTILINE)
REFUSED = "refused, as it must be"
# A goal in the code to which the prover finds no proof.
OPEN = r"note: src/\S+\.rt:\d+:\d+: (?:it is not proved that (?!the loop ends)|`search` found no)"
# A goal whose proof is written down, and shows something else than the goal says now. Where a
# proof cites what went away, the message is of the name, and not of two types.
OTHER = (
    r"`\w+`: the goal does not follow|`search`: no proof of|as printed, the two (?:types|sides)"
    r"|computed as far as they go, the two types (?:first )?differ|expected type"
    r"|list the missing equation"
)
FALSE = rf"\./proofs/\S+/Answers\.antt:\d+:\d+: error: `\S+`: (?:{OTHER})"
SHOWS = re.compile(rf"{re.escape(REFUSED)}: (?:{OPEN}|{FALSE})")


def counts(said):
    """Whether an edit was refused for what it turns, by what rt says behind its name."""
    return bool(SHOWS.match(said))


def said_of_edits(text):
    """What rt says of each edit of which it printed a line, by crate and name."""
    return {(crate, name): said for crate, name, said in LINE.findall(text)}


def main():
    with open(sys.argv[1], encoding="utf-8", errors="replace") as it:
        said = said_of_edits(it.read())
    wanted = [(crate, name) for crate in crates() for name in edits_in(crate, TRIED)[0]]
    faults = [it for it in wanted if not counts(said.get(it, ""))]
    for crate, name in faults:
        found = said.get((crate, name), "rt says nothing of it")
        print(f"{crate}/{TRIED}/{name} NOT REFUSED FOR A GOAL: {found}")
    print(f"{len(wanted) - len(faults)} passed, {len(faults)} failed")
    return 1 if faults else 0


if __name__ == "__main__":
    sys.exit(main())
