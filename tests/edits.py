"""Edits, which plant a wrong body, in crates/NAME/must-fail/ and crates/NAME/wrong-bodies/.

An edit has a line 'file: PATH', with a path in the crate, and then pairs of lines 'old: TEXT' and
'new: TEXT'. Each old text stands exactly once in what the pairs before it left of the file.
The gate tries those of must-fail/. Of those of wrong-bodies/ a record tells what they were refused
on, by a sum.
"""
import hashlib
import os

from harness import ROOT, files_below, text_of

TRIED, BESIDE = "must-fail", "wrong-bodies"
# The most lines of an edit: one that takes more turns more than one thing.
MOST_LINES = 12
# The record of a crate's edits in wrong-bodies/.
RECORD = """\
# Wrong bodies that were refused

`tests/wrong_bodies {crate}` wrote this, once the prover had refused each of the {count} edits here.
The sum is of the crate's sources, definitions, proofs and edits, without comments and blank lines:

    {sum}
"""


def crates():
    """Names the crates of the repository."""
    return sorted(
        name for name in os.listdir(f"{ROOT}/crates") if os.path.isdir(f"{ROOT}/crates/{name}/src")
    )


def edits_in(crate, folder):
    """Returns the edits of a crate's folder, by name without the ending, and what else is there."""
    at = f"{ROOT}/crates/{crate}/{folder}"
    files = sorted(os.listdir(at)) if os.path.isdir(at) else []
    edits = {name[: -len(".edit")]: f"{at}/{name}" for name in files if name.endswith(".edit")}
    return edits, [name for name in files if not name.endswith((".edit", ".md"))]


def counted_lines(path):
    """The lines of a file that count: those that are neither empty nor a comment."""
    lines = map(str.strip, text_of(path).splitlines())
    return [line for line in lines if line and not line.startswith(("//", "--"))]


def sum_of(crate):
    """The sum of what a crate's own edits of wrong-bodies/ are refused on, and of these."""
    found = hashlib.sha256()
    for part in ("src", "specs", "proofs", BESIDE):
        for path in files_below(f"crates/{crate}/{part}", ".rt", ".antt", ".edit"):
            found.update("\n".join([path, *counted_lines(path), ""]).encode())
    return found.hexdigest()


def record_file(crate):
    return f"{ROOT}/crates/{crate}/{BESIDE}/tried.md"


def record(crate):
    """The record of a crate whose edits of wrong-bodies/ were refused as the crate stands."""
    return RECORD.format(crate=crate, count=len(edits_in(crate, BESIDE)[0]), sum=sum_of(crate))


def is_recorded(crate):
    """Whether a crate has no edits in wrong-bodies/, or the record of them as they stand."""
    file = record_file(crate)
    if not edits_in(crate, BESIDE)[0]:
        return not os.path.exists(file)
    return os.path.exists(file) and text_of(os.path.relpath(file, ROOT)) == record(crate)


def pairs_of(text):
    """Yields for each pair of an edit its file, the old text and the new one."""
    file, old = "", None
    for line in text.split("\n"):
        word, _, rest = line.partition(":")
        rest = rest.removeprefix(" ")
        if word == "file":
            file = rest.strip()
        elif word == "old":
            old = rest
        elif word == "new" and old:
            yield file, old, rest
            old = None


def fault_of_edit(crate, edit):
    """Returns why an edit does not apply to its crate, or None."""
    with open(edit, encoding="utf-8") as it:
        text = it.read()
    if text.count("\n") > MOST_LINES:
        return f"it has more than {MOST_LINES} lines"
    pairs, left = list(pairs_of(text)), {}
    for file, old, new in pairs:
        path = f"{ROOT}/crates/{crate}/{file}"
        if not file.startswith(("src/", "specs/", "proofs/")) or not os.path.isfile(path):
            return f"there is no file {file!r} in the crate"
        if file not in left:
            with open(path, encoding="utf-8") as it:
                left[file] = it.read()
        count = left[file].count(old)
        if count != 1:
            return f"this stands in {file} {count} times, and not once: {old!r}"
        left[file] = left[file].replace(old, new)
    begun = [line[:4] for line in text.split("\n")]
    return (
        None
        if pairs and begun.count("old:") == begun.count("new:") == len(pairs)
        else "its lines are no pairs of 'old:' and 'new:'"
    )
