"""Each public call of a library that may be refused memory stands in a table of tests.

The tables are those of `ample_memory` in the crates of tests, and those of what the programs and
the library for C reach, which make the calls with ample memory. No clause says that a call is not
refused then.
"""
import os
import re

import ample_audits
import ample_bindings
import ample_scripts
import ample_watches
import split_logs
from edits import crates
from harness import ROOT

LIBRARIES = (
    "fdb_history", "fdb_chain", "fdb_live", "fdb_queue", "fdb_proxy", "fdb_client", "fdb_command",
    "fdb_script", "fdb_replay", "fdb_lines", "fdb_log_reader", "fdb_audit", "fdb_c",
)
# The errors of the standard library for memory, and those of a library that may be for memory.
ALLOC = {"AllocError", "AllocFailed"}
OF_MEMORY = re.compile(
    r"^pub enum (\w+) \{\n(?:(?!\}).*\n)*? +(?:Memory,|\w+\(\w+(?:Error|Fault)\),)", re.MULTILINE
)
# A struct with its fields, of which one may be such an error.
STRUCT = re.compile(r"^pub struct (\w+) \{\n((?:(?!\}).*\n)*)", re.MULTILINE)
# The clause by which a call is not refused memory, though the type of its errors has one for it.
NOT_REFUSED = {
    "GrvQueue::new": "bad_config", "LiveRecord::report": "refused",
}
# The calls that answer a status: that of the programs, and those that C makes.
BY_STATUS = re.compile(r"(?:fn drive\b|extern \"C\" fn)(?s:.*)-> u8\b")
IMPL = re.compile(r"impl(?:<.*?>)? (?:([\w:]+)(?:<.*>)? for )?(\w+)")
FUNCTION = re.compile(r'^ *(pub )?(?:extern "C" )?fn (\w+)', re.MULTILINE)
# What ends a function's signature.
ENDS = re.compile(r"\n *(?:requires|ensures|ghost)\b|\{")
DERIVED = re.compile(r"^#\[derive\(([^)]*)\)\]\npub (?:struct|enum) (\w+)", re.MULTILINE)
# A line of a table, which may go on behind a backslash: calls, how they are made, and numbers.
LINE = re.compile(
    r'(?:^|")([\w:]+(?:, [\w:]+)*) (?:\\\n)?\|(?:[^|\\\n]|\\\n)+\| [\w ]+(?:$|")', re.MULTILINE
)
# The calls that each line of a table makes, as its comment names them.
NAMED = re.compile(r"(?<=\()`[\w:]+`(?:,\s(?:/// )?`[\w:]+`)*(?=\))")
TABLES = re.compile(r"use fdb_checks::(?:\{[^}]*\b(?:plays_)?cases\b[^}]*\}|(?:plays_)?cases);")


def sources(folder):
    """The code of each file below a folder."""
    for place, _folders, names in os.walk(f"{ROOT}/{folder}"):
        for name in sorted(it for it in names if it.endswith(".rt")):
            with open(f"{place}/{name}", encoding="utf-8") as it:
                yield it.read()


def calls_of(code):
    """Yields the calls of a file that others may make, each with its code."""
    for part in re.split(r"^(?=impl\b|\w.*\bfn\b)", code, flags=re.MULTILINE):
        of_trait, of_type = made.groups() if (made := IMPL.match(part)) else (None, None)
        found = list(FUNCTION.finditer(part))
        ends = [it.start() for it in found[1:]] + [len(part)]
        for it, end in zip(found, ends):
            public, name = it.groups()
            if public or of_trait == "Clone":
                yield f"{of_type}::{name}" if of_type else name, part[it.start():end]
    for derived, name in DERIVED.findall(code):
        if "Clone" in derived and "Copy" not in derived:
            yield f"{name}::clone", "-> Result<Self, AllocError>"


def refusable():
    """The calls that may be refused memory, and what is wrong with those that never are."""
    files = [file for library in LIBRARIES for file in sources(f"crates/{library}/src")]
    errors = ALLOC.union(*map(OF_MEMORY.findall, files))
    of_fields = lambda fields: re.findall(r"^ +pub \w+: (\w+),", fields, re.MULTILINE)
    errors |= {name for file in files for name, fields in STRUCT.findall(file)
               if errors.intersection(of_fields(fields))}
    found, faults = set(), []
    for call, code in (it for file in files for it in calls_of(file)):
        head = ENDS.split(code)[0]
        answer = head.partition("->")[2]
        if call in NOT_REFUSED:
            clause = f"ensures {NOT_REFUSED[call]} "
            faults += [f"{call} has no {clause}"] * (clause not in code)
        elif BY_STATUS.search(head) or errors & set(re.findall(r"\w+", answer)):
            found.add(call)
    return found, faults


def tabled():
    """The calls in the tables of tests."""
    tables = [
        code for crate in crates() for code in sources(f"crates/{crate}/src")
        if TABLES.search(code)
    ]
    # (a table of scripts, which stand in raw texts, names its calls in its comment alone)
    plain = [re.sub(r'r#".*?"#', "", code, flags=re.DOTALL) for code in tables]
    by_line = {call for code in plain for it in LINE.findall(code) for call in it.split(", ")}
    by_table = {call for code in tables for it in NAMED.findall(code)
                for call in re.findall(r"`([\w:]+)`", it)}
    of_python = (*ample_audits.TABLES, *ample_watches.TABLES, *ample_scripts.TABLES,
                 *ample_bindings.TABLES, *split_logs.TABLES)
    by_row = {call for table in of_python for it in table for call in it.calls.split(", ")}
    return by_line | by_table | by_row


def tables(_program):
    """The calls of the tables are those that may be refused memory."""
    (found, faults), made = refusable(), tabled()
    yield "calls that are never refused memory", "; ".join(faults) or None
    for call in sorted(found | made):
        fault = "it stands in no table of ample_memory" if call not in made else None
        yield call, fault if call in found else "no such call may be refused memory"
