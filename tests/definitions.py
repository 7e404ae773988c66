"""The list in docs/DEFINITIONS.md, made from the comments of the definitions.

    python3 tests/definitions.py [--write]

First come the definitions that the headline rests on, in the order in which a reader has to believe
them: by crate as in crates.txt, by file as in its specs/Lib.antt, and as they stand there. Each has
the first sentence of its comment, and of a long one what stands before its colon or semicolon; but
those of a file that docs/SCRIPT.md or docs/PROMISES.md tells in words, or that takes logs apart,
are only counted. Those that only other promises cite are left out.
"""
import os
import re
import sys

sys.dont_write_bytecode = True

import generated
from believed import HEADLINE, counts, rests_on
from harness import ROOT, text_of

DOCUMENT = "docs/DEFINITIONS.md"
DEFINED = re.compile(r"^(?:abbrev )?pub (?:record |data )?(?!(?:use|mod)\b)([^\s:({]+)")
MODULE = re.compile(r"^pub mod (\w+)$", re.MULTILINE)
# Where a definition comes from, which its file says.
SOURCE = re.compile(r"\s*\([^()]*(?:FoundationDB|masterserver|GrvProxy|own|1990)[^()]*\)")
LONG = 12
# The files that docs/SCRIPT.md or docs/PROMISES.md tells in words, and those that take logs apart.
TOLD = {
    ("fdb_history", "Event"),
    ("fdb_history", "Log"),
    ("fdb_history", "Explained"),
    ("fdb_history", "Added"),
    ("fdb_history", "Issuing"),
    ("fdb_history", "Text"),
    ("fdb_history", "Laws"),
    ("fdb_history", "Faults"),
    ("fdb_history", "Strays"),
    ("fdb_history", "Audit"),
    ("fdb_script", "Plan"),
    ("fdb_script", "Answering"),
    ("fdb_script", "Reading"),
    ("fdb_script", "Text"),
    ("fdb_replay", "Replay"),
}


def crates_in_order():
    """The crates that have definitions, lowest first."""
    lines = text_of("crates.txt").splitlines()
    names = [line.partition(":")[0] for line in lines if line and not line.startswith("#")]
    return [it for it in names if os.path.exists(f"{ROOT}/crates/{it}/specs/Lib.antt")]


def files_in_order():
    """The public files of definitions: each with its crate, and its name without the ending."""
    for crate in crates_in_order():
        for name in MODULE.findall(text_of(f"crates/{crate}/specs/Lib.antt")):
            if os.path.exists(f"{ROOT}/crates/{crate}/specs/{name}.antt") and name != "private":
                yield crate, name


def first_words(comment):
    """The first sentence of a comment, cut where it is long, without where it comes from."""
    said = re.split(r"(?<=\.) (?=[A-Z])", SOURCE.sub("", " ".join(comment)).strip())[0]
    if len(said.split()) > LONG:
        said = re.split(r"[:;] ", said)[0]
    return said[:1].upper() + said[1:].rstrip(".:;")


def comments_of(crate, file):
    """The first words of a file's own comment, and of those of its definitions by name."""
    found, lines, comment = {}, text_of(f"crates/{crate}/specs/{file}.antt").splitlines(), []
    for line in lines:
        name = DEFINED.match(line)
        if name:
            found[name[1]] = first_words(comment)
        comment = [*comment, line[2:].strip()] if line.startswith("--") else []
    head = []
    for line in lines:
        if not line.startswith("--"):
            break
        head.append(line[2:].strip())
    return first_words(head), found


def lines_of(names, comments):
    """A line for each of some definitions, which break where they are shown."""
    said = [f"`{it}`: {comments[it]}" if comments[it] else f"`{it}`" for it in names]
    return "\\\n".join(said).splitlines()


def believed():
    """The definitions that the headline rests on: crate, file and name."""
    return {(it.crate, it.file, it.name) for it in rests_on(HEADLINE)}


def without_comment():
    """Those of them that have no comment, by name."""
    return [name for *at, name in sorted(believed()) if not comments_of(*at)[1][name]]


def lines():
    """The lines of the list."""
    headline = believed()
    made, crate_before = [], ""
    for crate, file in files_in_order():
        about, comments = comments_of(crate, file)
        wanted = [it for it in comments if (crate, file, it) in headline]
        if wanted and crate != crate_before:
            made += ["", f"### {crate}"]
            crate_before = crate
        if wanted:
            is_told = (crate, file) in TOLD
            size = f": {len(wanted)} definitions" if is_told else ""
            made += ["", f"**[{file}](../crates/{crate}/specs/{file}.antt)**: {about}{size}"]
            made += [] if is_told else ["", *lines_of(wanted, comments)]
    found = counts()
    size = f"{found['headline']} lines in {found['definitions']} definitions"
    return ["", "## What the headline rests on", "", f"These are {size}.", *made]


if __name__ == "__main__":
    generated.main(DOCUMENT, lines())
