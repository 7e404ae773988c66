"""The lines of a log as fdb_audit reads them, or which line is refused and why."""
from typing import NamedTuple, Optional

from reader import HIGHEST, Refused, value_of

# The most bytes of a line, and how many more one may have that has its own number.
MOST_BYTES, NUMBER_BYTES = 1_048_576, 40
CALLS = ("read", "commit", "ask", "report")
KINDS = (*CALLS, "learn")
CAUSES = {
    "Empty": "no line",
    "TooLong": "more than 1048576 bytes",
    "NotJson": "no JSON",
    "NoCall": "no read, commit, ask, report or learn",
    "TwoCalls": "more than one of read, commit, ask, report and learn",
    "SomeTimes": "began and ended stand in all lines or in none",
    "BadMember client": "no name, or none in a log without times",
    **{f"BadMember {kind}": "no whole number below 2^64" for kind in CALLS},
    "BadMember learn": "no client of a line above, or beside times",
    "BadMember began": "no whole number below 2^64, or none beside ended",
    "BadMember ended": "no whole number below 2^64 and not null, or before began",
    "BadMember key": "no name",
    "BadMember numbers": "no whole number below 2^64, or not above that of the line before",
}


class Line(NamedTuple):
    """A line: of a learn, the value is the name of the client from whom it learnt."""

    client: Optional[str]
    kind: str
    value: object
    began: Optional[int] = None
    ended: Optional[int] = None
    key: Optional[str] = None
    said: dict = {}
    number: Optional[int] = None


def refusal(number, why):
    """What is said of a log that is refused: the line, if there is one, and the cause."""
    word, _, member = why.partition(" ")
    return f"{' '.join(it for it in (word, str(number or ''), member) if it)}: {CAUSES[why]}"


def lines_of(given, member=None, numbers=None):
    """The lines of a log, or Refused with the first that is refused, and why.

    The member, where one is named, has their keys, and `numbers` their own numbers.
    """
    texts = given.split(b"\n")
    if not texts[-1]:
        texts.pop()
    if not texts:
        raise Refused(refusal(0, "Empty"))
    lines, names = [], set()
    for number, text in enumerate(texts, 1):
        try:
            has_times = lines[0].began is not None if lines else None
            line = line_of(text, names, has_times, member, numbers)
            if numbers is not None:
                last = lines[-1].number if lines else -1
                wrong_if(line.number is None or line.number <= last, "numbers")
        except Refused as why:
            raise Refused(refusal(number, str(why))) from None
        lines.append(line)
        names.add(line.client)
    return lines


def line_of(text, names, has_times, member=None, numbers=None):
    """A line, below lines with these names that have times or not (None: it is the first)."""
    if len(text) > MOST_BYTES + NUMBER_BYTES * (numbers is not None):
        raise Refused("TooLong")
    said = value_of(text)
    said = said if type(said) is dict else {}
    client = name_in(said.get("client"))
    wrong_if("client" in said and client is None, "client")
    kinds = [it for it in KINDS if it in said]
    if len(kinds) != 1:
        raise Refused("TwoCalls" if kinds else "NoCall")
    kind, value = kinds[0], said[kinds[0]]
    value = name_in(value) if kind == "learn" else number_in(value)
    wrong_if(value is None or kind == "learn" and value not in names, kind)
    began, ended = times_of(said)
    key = name_in(said.get(member))
    wrong_if(member is not None and kind == "learn", "learn")
    wrong_if(member in said and key is None, "key")
    if has_times not in (None, began is not None):
        raise Refused("SomeTimes")
    wrong_if(began is not None and kind == "learn", "learn")
    wrong_if(began is None and client is None, "client")
    return Line(client, kind, value, began, ended, key, said, number_in(said.get(numbers)))


def times_of(said):
    """When a call began and ended, or None twice."""
    if "began" not in said and "ended" not in said:
        return None, None
    began, ended = number_in(said.get("began")), number_in(said.get("ended"))
    wrong_if(began is None, "began")
    is_unknown = "ended" in said and said["ended"] is None
    wrong_if(not is_unknown and (ended is None or ended < began), "ended")
    return began, ended


def name_in(value):
    """The name that a value is: a text, or a whole number, which is its decimal text; or None."""
    return str(value) if is_whole(value) else value if type(value) is str else None


def number_in(value):
    """The number that a value is: a whole one, or one that a text of digits writes; or None."""
    if type(value) is str and value.isascii() and value.isdigit():
        digits = value.lstrip("0") or "0"
        value = int(digits) if len(digits) <= 20 else None
    return value if is_whole(value) else None


def wrong_if(is_wrong, member):
    if is_wrong:
        raise Refused(f"BadMember {member}")


def is_whole(value):
    return type(value) is int and 0 <= value <= HIGHEST
