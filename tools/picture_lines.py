"""Reads the lines of a log as fdb_audit does, for a picture."""
import json
import math
import re
from types import SimpleNamespace

from drawing import CALLS, Refused

# The most bytes of a line, and how deep its lists and objects may be nested.
MOST_BYTES, DEEPEST = 1_048_576, 127
STRING, BRACKET = re.compile(r'"[^"\\]*(?:\\.[^"\\]*)*"'), re.compile(r"[\[\]{}]")
# What reading an object may raise that lacks a member, or has another kind of value there.
NO_SUCH = (LookupError, TypeError, ValueError, AttributeError, RecursionError)


def no_number(word):
    raise ValueError(f"{word} is no JSON")


def double_of(text):
    return no_number(text) if math.isinf(float(text)) else float(text)


def whole_of(digits):
    """A number without a fraction: -0 is no whole one, and one beyond a double none at all."""
    double = double_of(digits)
    return double if digits == "-0" else int(digits)


READER = json.JSONDecoder(parse_constant=no_number, parse_float=double_of, parse_int=whole_of)


def value_of(text):
    """Reads JSON as fdb_audit does, which is stricter than Python: no half of a pair of surrogates,
    also in a member that is overwritten, and nothing that is nested too deep."""
    if len(text.encode()) > MOST_BYTES:
        raise ValueError(f"more than {MOST_BYTES} bytes")
    value = READER.decode(text)
    for escaped in STRING.findall(text) if "\\u" in text else ():
        READER.decode(escaped).encode()
    if text.count("[") + text.count("{") > DEEPEST and depth_of(text) > DEEPEST:
        raise ValueError("nested too deep")
    return value


def depth_of(text):
    depth = deepest = 0
    for bracket in BRACKET.findall(STRING.sub("", text)):
        depth += 1 if bracket in "[{" else -1
        deepest = max(deepest, depth)
    return deepest


def number_in(value):
    """The number that a value is: a whole one, or one that a text of digits writes."""
    if isinstance(value, str) and value.isascii() and value.isdigit():
        value = int(value)
    if type(value) is not int or not 0 <= value < 2**64:
        raise ValueError(f"{value!r} is no whole number")
    return value


def name_in(value):
    """The name that a value is: a text, or a whole number, which is its digits."""
    return value if isinstance(value, str) else str(number_in(value))


def call_of(text, number, key):
    """Reads a line, whose key must be a name where it has one."""
    said = value_of(text)
    kinds = [it for it in (*CALLS, "learn") if it in said]
    has_times = "began" in said or "ended" in said
    if len(kinds) != 1:
        raise ValueError("a line has one of read, commit, ask, report and learn")
    client = name_in(said["client"]) if "client" in said else None
    value = (name_in if kinds[0] == "learn" else number_in)(said[kinds[0]])
    began, ended = number_in(said["began"]) if has_times else None, None
    if has_times and said["ended"] is not None:
        ended = number_in(said["ended"])
    if has_times and (kinds[0] == "learn" or ended is not None and ended < began):
        raise ValueError("no call ends before it began, and no learn has times")
    if not has_times and client is None:
        raise ValueError("without times each line names its client")
    return SimpleNamespace(
        number=number, kind=kinds[0], client=client, value=value, began=began, ended=ended,
        has_times=has_times, key=name_in(said[key]) if key in said else None, said=said)


def calls_of(texts, key, is_watched):
    """Reads the lines of a log, and tells those by number that a watch refused and left out."""
    calls, refused, last = [], [], {}
    for number, text in enumerate(texts, 1):
        try:
            it = call_of(text, number, key)
            if it.has_times != (is_watched or (calls or [it])[0].has_times):
                raise ValueError("all lines have times, or none has")
            it.source = last[it.value] if it.kind == "learn" else None
        except NO_SUCH as why:
            if not is_watched:
                raise Refused(f"BadLog {number}: {why}: {text[:80]!r}") from None
            refused.append(number)
            continue
        last[it.client] = len(calls)
        calls.append(it)
    return calls, refused
