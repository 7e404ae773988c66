"""Tokens of one service's name do not compile beside a live record of another's.

No proof says so, and an edit that must fail has to compile. So the check of types is asked, on a
scratch copy of fdb_live and the crates below it, with a small program above them. It needs no
proof, and stops before anything is built.
"""
import os
import re
import shutil
import tempfile

from harness import MANY_SECONDS, ROOT, run

BELOW = ["fdb_history", "fdb_chain", "fdb_live"]

HEAD = """//! A live record, and tokens that are given to it.
#![tactic(auto)]

use fdb_history::{OpenGate, Record};
use fdb_live::{Ack, Fetched, Live, LiveError, LiveRecord, Seen};
use std::sync::Wait;

fn main() {}
"""
# Each function gives a record of the name `S` a token of the name that stands for NAME: what it is
# given besides, what it gives, and its body.
FORM = """
pub fn CALL_ITS<S: Live, T: Live, R: Wait>(rt: &R, live: &LiveRecord<S>, GIVEN)GIVES {
    BODY
}
"""
MUT = "token: &mut Seen<NAME>"
CALLS = {
    "read": (MUT, " -> Fetched", "live.read(rt, token)"),
    "report": (f"{MUT}, rec: Record", " -> Result<Ack, LiveError>",
               "live.report(rt, &OpenGate, 0, token, rec)"),
    "split": (MUT, "", "let _ = live.split(token);"),
    "learn": ("own: &mut Seen<S>, token: Seen<NAME>", "", "live.learn(rt, own, token);"),
    "meet": (f"own: &mut Seen<S>, {MUT}", "", "live.meet(rt, own, token);"),
}
NAMES = {"own": "S", "other": "T"}
ERROR = re.compile(r"src/main\.rt:(\d+):\d+: error(.*)")
# (what else stands around the types may differ from kit to kit)
MISMATCH = re.compile(r".*\bSeen<S>.*\bSeen<T>.*")


def text_of_calls():
    """Returns the program, and for each of its lines the call and whose token it is given.

    The two forms of a call differ in a name.
    """
    text, places = HEAD, [None] * HEAD.count("\n")
    for call, (given, gives, body) in CALLS.items():
        for its, name in NAMES.items():
            parts = {"CALL": call, "ITS": its, "GIVEN": given, "GIVES": gives, "BODY": body}
            form = FORM
            for part, said in {**parts, "NAME": name}.items():
                form = form.replace(part, said)
            text += form
            places += [(call, its)] * form.count("\n")
    return text, places


def types_checked(text):
    """Returns what the check of types says of this program above the live record."""
    with tempfile.TemporaryDirectory(prefix="names-") as top:
        for crate in BELOW:
            for part in ("src", "specs"):
                shutil.copytree(f"{ROOT}/crates/{crate}/{part}", f"{top}/crates/{crate}/{part}")
        with open(f"{ROOT}/crates.txt", encoding="utf-8") as it:
            lines = [line for line in it if line.split(":")[0] in BELOW]
        with open(f"{top}/crates.txt", "w", encoding="utf-8") as it:
            it.writelines([*lines, f"names: {' '.join(BELOW)}\n"])
        os.makedirs(f"{top}/crates/names/src")
        with open(f"{top}/crates/names/src/main.rt", "w", encoding="utf-8") as it:
            it.write(text)
        ran = run(["rt", "try"], seconds=MANY_SECONDS, cwd=f"{top}/crates/names")
    return (ran.out + ran.err).decode(errors="replace")


def tokens(_program):
    """Each call takes a token of the record's own name, and is refused with another's."""
    text, places = text_of_calls()
    said, errors = types_checked(text), {}
    for line, error in ERROR.findall(said):
        errors.setdefault(places[int(line) - 1], []).append(error)
    for call in CALLS:
        fault = errors.pop((call, "own"), None)
        yield f"{call}: a token of the same name", f"refused: {fault}" if fault else None
        found = errors.pop((call, "other"), [])
        is_so = len(found) == 1 and MISMATCH.fullmatch(found[0])
        fault = f"the errors are {found}; rt said {said[-200:]!r}"
        yield f"{call}: a token of another name", None if is_so else fault
    yield "nothing else is refused", f"{errors}" if errors else None
