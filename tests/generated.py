"""The part of a document that is made from the sources: whether it is up to date, or made anew.

It stands below the line that MARK begins; what is above is written by hand.
"""
import sys

from harness import ROOT, text_of

MARK = "<!-- Made by "


def parts_of(document):
    """What is written by hand, with the mark's line, and what was made."""
    above, _, rest = text_of(document).partition(MARK)
    mark, _, made = rest.partition("\n")
    return f"{above}{MARK}{mark}\n", made


def fault_of(document, lines):
    """What is wrong with the document's part if it should have these lines, or None."""
    made = parts_of(document)[1].splitlines()
    if made == lines:
        return None
    at = next((at for at, both in enumerate(zip(made, lines)) if both[0] != both[1]), -1)
    wanted = lines[at] if at >= 0 else f"{len(lines)} lines, and it has {len(made)}"
    return f"it is not up to date: {wanted!r}"


def main(document, lines):
    """Prints the lines, or with --write puts them into the document."""
    if sys.argv[1:] == ["--write"]:
        above = parts_of(document)[0]
        with open(f"{ROOT}/{document}", "w", encoding="utf-8") as it:
            it.write(above + "".join(f"{line}\n" for line in lines))
    else:
        print(*lines, sep="\n")
