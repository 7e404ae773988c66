"""Wrong bodies that are tried together: which may be, and what is said of each."""
import os
import tempfile

from refused_edits import counts
from turned import groups_of

# A file of a crate, and edits of it by name: where they are, and pairs of texts.
FILE = "src/low/one.rt"
SOURCE = """\
/// The most.
const MOST: u64 = 7;

impl One {
    /// Twice.
    #[inline]
    pub fn twice(&self) -> u64
        ensures { result ≡ self + self }
    {
        let of = |it: u64| {
            it + it
        };
        of(self.0)
    }

    fn none() {}
}

pub(crate) fn least(x: u64, y: u64) -> u64 {
    if x <= y { x } else { y }
}

fn calls(x: u64) -> u64 {
    least(x, x)
}
"""
EDITS = {
    "a": [("            it + it", "            it * it")],
    "b": [("        of(self.0)", "        of(0)")],
    "c": [("if x <= y", "if x > y")],
    "d": [("    least(x, x)", "    least(x, x + 0)")],
    "e": [("u64 = 7;", "u64 = 8;")],
    "f": [("nowhere", "else")],
    "g": [("x } else { y }", "x } else { x }"), ("else { x }", "else { 0 }")],
    "h": [("fn none() {}", "fn none() { let _x = 1; }")],
}
GROUPS = [["a", "c", "d", "h"], ["b", "g"]]
# What a check says of the first group, in its words, and which edits were refused for a goal by it.
NOT_PROVED = "logic=not-proved"
PROOF = "./proofs/low/one/One/twice/Answers.antt:4:1: error: "
FALSE = "`returns`: `grind`: the goal does not follow"
GONE = f"{PROOF}`returns`: the type has no field `x`"
GOAL = "it is not proved that what the function ensures holds when it returns (`returns`)"
SAID = (
    ("the goal of one", [f"note: {FILE}:7:5: {GOAL}", NOT_PROVED], ["a"]),
    ("of two, and of a caller no goal",
     [f"note: {FILE}:7:5: {GOAL}", f"note: {FILE}:19:1: `search` found no proof of it",
      "fn low::one::calls: no proof: it calls `low::one::least`, which is not proved", NOT_PROVED],
     ["a", "c"]),
    ("what stands above it", [f"note: {FILE}:6:5: {GOAL}", NOT_PROVED], ["a"]),
    ("no function", [f"note: {FILE}:2:1: {GOAL}", NOT_PROVED], []),
    ("another file", [f"note: src/one.rt:7:5: {GOAL}", NOT_PROVED], []),
    ("an answer that is false", [f"{PROOF}{FALSE}", NOT_PROVED], ["a"]),
    ("that of another file", [f"{PROOF}{FALSE}".replace("/low", ""), NOT_PROVED], []),
    ("a proof names what is gone, and no goal", [GONE, NOT_PROVED], []),
    ("a proof names what is gone, and a goal", [GONE, f"note: {FILE}:7:5: {GOAL}", NOT_PROVED],
     ["a"]),
    ("first that it is not covered",
     [f"note: {FILE}:7:5: the borrow checker does not cover it", f"note: {FILE}:7:5: {GOAL}",
      NOT_PROVED], []),
    ("no verdict", [f"note: {FILE}:7:5: {GOAL}", "rattle: no verdict"], []),
    ("all is proved", ["logic=proved functions=4"], []),
)
REJECTED = [f"{FILE}:20:8: error[mismatched-types]: `<=` cannot compare `u64` with `&str`"]


def written(folder):
    """Writes the crate, and gives its edits."""
    os.makedirs(os.path.dirname(f"{folder}/{FILE}"))
    with open(f"{folder}/{FILE}", "w", encoding="utf-8") as it:
        it.write(SOURCE)
    for name, pairs in EDITS.items():
        with open(f"{folder}/{name}", "w", encoding="utf-8") as it:
            it.write(f"file: {FILE}\n" + "".join(f"old: {a}\nnew: {b}\n" for a, b in pairs))
    return {name: f"{folder}/{name}" for name in EDITS}


def together(_program):
    """Edits of different functions are tried in one check, and each is judged by its own goals."""
    with tempfile.TemporaryDirectory() as folder:
        edits = written(folder)
        groups = groups_of(folder, edits)
        found = [[*it.turned] for it in groups]
        yield "groups", None if found == GROUPS else f"{found}"
        first = groups[0]
        wanted = SOURCE
        for name in GROUPS[0]:
            for old, new in EDITS[name]:
                wanted = wanted.replace(old, new)
        yield "their text", None if first.texts == {FILE: wanted} else f"{first.texts}"
        for name, lines, refused in SAID:
            said = first.said(lines)
            found = [it for it in first.turned if counts(said.get(it, ""))]
            yield name, None if found == refused else f"{found}: {said}"
        found = first.rejected(REJECTED)
        left = [*first.without(found, edits).turned]
        is_so = found == ["c"] and left == ["a", "d", "h"]
        yield "code that is none", None if is_so else f"{found}, {left}"
