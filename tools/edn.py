"""Reads EDN, the notation of Clojure's values, as far as histories of Jepsen use it.

Keywords, without colons, and symbols become texts, sets tuples, and tagged literals their values.
"""
import json
import re

SPACE = re.compile(r"(?:[\s,]+|;[^\n]*)*")
NUMBER = re.compile(r"[+-]?(?:0|[1-9]\d*)(?:N|(?:\.\d+)?(?:[eE][+-]?\d+)?M?)", re.ASCII)
# A string, a vector of whole numbers (which is read at once), an opening bracket, or a word.
TOKEN = re.compile(r'"[^"\\]*(?:\\.[^"\\]*)*"|\[[0-9 ]+\]|#?\{|[\[(]|[^\s,;"\[\](){}]+', re.DOTALL)
WORDS = {"nil": None, "true": True, "false": False}
PAIRS = {"[": "]", "(": ")", "{": "}", "#{": "}"}
# JSON has the same strings and, but for a sign and a letter, numbers.
AS_JSON = json.JSONDecoder(strict=False).decode


def skipped(text, at):
    """The place behind white space, commas, comments and what is discarded."""
    at = SPACE.match(text, at).end()
    while text.startswith("#_", at):
        at = SPACE.match(text, value_at(text, skipped(text, at + 2))[1]).end()
    return at


def value_at(text, at):
    """The value that begins there, and a place behind it; ValueError where there is none."""
    found = TOKEN.match(text, at)
    if not found:
        raise json.JSONDecodeError("no value", text, at)
    token, end = found[0], found.end()
    if token[0] == ":":
        return token[1:], end
    if token in PAIRS:
        return collection_at(text, end, token)
    if token[0] == "[":
        return [int(it) for it in token[1:-1].split()], end
    if token[0] == "#" and not token.startswith("##"):
        return value_at(text, skipped(text, end))
    if token[0] == '"' or NUMBER.fullmatch(token):
        return AS_JSON(token.lstrip("+").rstrip("NM")), end
    return WORDS.get(token, token), end


def collection_at(text, at, opening):
    """The same for what stands in a vector, a list, a map or a set."""
    values = []
    while not text.startswith(PAIRS[opening], at := skipped(text, at)):
        value, at = value_at(text, at)
        values.append(value)
    if opening != "{":
        return tuple(values) if opening == "#{" else values, at + 1
    if len(values) % 2:
        raise json.JSONDecodeError("a key without a value", text, at)
    return dict(zip(map(str, values[::2]), values[1::2])), at + 1
