"""Names of a crate's proofs/ that nothing uses.

What answers a goal, and what `using(..)` in the code names, is used, and so is what a definition
that is used names. Names are compared as words in the whole crate: where two files give one name
to two lemmas, one of which is used, both count as used.
"""
import os
import re
from collections import defaultdict

from edits import crates
from harness import files_below, text_of

# The files that answer goals.
ANSWERING = ("Answers.antt", "Invariants.antt", "Proof.antt", "Send.antt", "Sync.antt")
USING = re.compile(r"\bcrate::proofs::(?:\w+::)*([\w-]+)")
WORD = re.compile(r"[^\s(){}\[\],;.λ\\]+")
# A definition begins at the beginning of a line, or two letters on in a module of parameters.
HEAD = re.compile(r"(?:pub )?(?:(?:abbrev|record|data|ruleset) )?([^\s:(]+)")
INNER_HEAD = re.compile(r"  (?:pub )?(?:(?:abbrev|record|data|ruleset) )?([^\s:(]+) [^=]*:")
OTHER_LINES = ("--", "use ", "pub use ", "mod ", "pub mod ", "unfolding ", " ", "}", "]", ")")


def definitions(text):
    """Yields what a file defines: each name, and the words from there to the next one."""
    name, words, parameters = None, [], []
    for line in text.split("\n"):
        code = line.split("-- ")[0]
        said = WORD.findall(code)
        if code.startswith("module "):
            yield name, words
            name, words, parameters = None, [], said
            continue
        if code and not code.startswith(OTHER_LINES):
            parameters = []
        head = HEAD.match(code) if not code.startswith(OTHER_LINES) else None
        head = head or (INNER_HEAD.match(code) if parameters else None)
        if head:
            yield name, words
            name, words = head[1], list(parameters)
        if not code.startswith(("use ", "pub use ")):
            words += said
    yield name, words


def unused_of(crate):
    """The names that nothing uses, by file."""
    defined, files, waiting = defaultdict(set), defaultdict(list), []
    for path in files_below(f"crates/{crate}/proofs", ".antt"):
        text = text_of(path)
        if os.path.basename(path) in ANSWERING:
            waiting += WORD.findall(text)
            continue
        for name, words in definitions(text):
            if name:
                defined[name] |= set(words)
                files[path] += [name] * (name not in files[path])
    for path in files_below(f"crates/{crate}/src", ".rt"):
        waiting += USING.findall(text_of(path))
    reached = set()
    while waiting:
        word = waiting.pop()
        if word not in reached:
            reached.add(word)
            waiting += defined.get(word, ())
    return {path: [it for it in names if it not in reached] for path, names in files.items()}


def unused(_program):
    """Each name that a file of lemmas defines is used."""
    for crate in crates():
        for path, names in unused_of(crate).items():
            yield path, f"nothing uses {', '.join(names)}" if names else None
