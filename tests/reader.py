"""What a script's bytes stand for, by the rules of the format alone, or why it is refused."""
import json
import math
import re
from types import SimpleNamespace

HIGHEST = 2**64 - 1
LAST_VERSION = 9_223_372_036_854_775_807
DEEPEST = 127
MOST_THROTTLES = 1_000
MOST_ROUNDS = 10_000
MOST_COMMANDS = 10_000

STRING = re.compile(r'"[^"\\]*(?:\\.[^"\\]*)*"', re.DOTALL)
BRACKET = re.compile(r"[\[\]{}]")
REQUIRED = object()


class Refused(Exception):
    """Says why a script is refused."""


def value_of(given):
    """Reads JSON as the format asks, which is stricter than Python.

    A whole number is an int, any other one a float.
    """
    try:
        text = given.decode()
        value = json.loads(
            text, parse_int=number_of, parse_float=double_of, parse_constant=no_number
        )
        # Python reads half a pair of surrogates, here into a member that may be overwritten; such a
        # text cannot be encoded.
        for escaped in (it for it in STRING.findall(text) if "\\u" in it):
            json.loads(escaped).encode()
    except (ValueError, RecursionError):
        raise Refused("NotJson") from None
    if depth_of(text) > DEEPEST:
        raise Refused("NotJson")
    return value


def number_of(digits):
    is_whole = not digits.startswith("-") and len(digits) <= 20 and int(digits) <= HIGHEST
    return int(digits) if is_whole else double_of(digits)


def double_of(text):
    if math.isinf(float(text)):
        raise ValueError("no finite double")
    return float(text)


def no_number(word):
    raise ValueError(f"{word} is no JSON")


def depth_of(text):
    """Returns how deep the lists and objects of a JSON text are nested."""
    depth = deepest = 0
    for bracket in BRACKET.findall(STRING.sub("", text)):
        depth += 1 if bracket in "[{" else -1
        deepest = max(deepest, depth)
    return deepest


def whole(least=0, most=HIGHEST):
    # To Python true is the number 1, so a number is told by its type.
    return lambda it: type(it) is int and least <= it <= most


def flag(it):
    return type(it) is bool


def priority(it):
    return it in ("system", "default", "batch")


def metadata(it):
    return it is None or type(it) is str and re.fullmatch("[0-9A-Fa-f]{20}", it) is not None


def tag(it):
    return type(it) is str and 1 <= len(it) <= 16 and all("!" <= letter <= "~" for letter in it)


def list_of(most, each):
    return lambda it: type(it) is list and len(it) <= most and all(map(each, it))


def throttle(it):
    return members_of(it, THROTTLE) is not None


def rounds(it):
    return (
        list_of(MOST_ROUNDS, lambda commands: type(commands) is list)(it)
        and sum(map(len, it)) <= MOST_COMMANDS
    )


# Of each member: what its value has to be, and what stands for one that is not there.
THROTTLE = {
    "priority": (priority, REQUIRED), "tag": (tag, REQUIRED), "rate": (whole(), REQUIRED),
    "expires": (whole(), REQUIRED),
}
TOP = {
    "epoch_end": (whole(), REQUIRED),
    "recovery": (whole(0, LAST_VERSION), REQUIRED),
    "clients": (whole(1, 64), REQUIRED),
    "normal": (whole(1, 100_000), 1000),
    "batch": (whole(0, 100_000), 500),
    "room": (whole(1, 100_000), 1000),
    "elapsed": (whole(1, 10_000_000), 1_000_000),
    "throttles": (list_of(MOST_THROTTLES, throttle), []),
    "rounds": (rounds, REQUIRED),
}
COMMANDS = {
    "grv": {
        "at": (whole(), 0), "priority": (priority, "default"), "count": (whole(), 1),
        "tags": (list_of(5, tag), []), "lock_aware": (flag, False), "use_min": (flag, False),
    },
    "ask": {"at": (whole(), REQUIRED), "processed": (whole(), 0)},
    "reask": {"num": (whole(), REQUIRED), "at": (whole(), REQUIRED), "processed": (whole(), 0)},
    "report": {
        "num": (whole(), REQUIRED), "locked": (flag, False), "metadata": (metadata, None),
        "min_known": (whole(), 0),
    },
    "tell": {"to": (whole(), REQUIRED)},
}


def members_of(it, wanted):
    """Returns the wanted members of an object, or None where one is not as it has to be."""
    if type(it) is not dict:
        return None
    found = {name: it.get(name, otherwise) for name, (_, otherwise) in wanted.items()}
    if any(
        found[name] is REQUIRED or not is_right(found[name])
        for name, (is_right, _) in wanted.items()
    ):
        return None
    return found


def command_of(it, clients):
    """Returns the command that an object stands for, or None."""
    head = {
        "do": (lambda do: type(do) is str and do in COMMANDS, REQUIRED),
        "client": (whole(0, clients - 1), REQUIRED),
    }
    who = members_of(it, head)
    what = members_of(it, COMMANDS[who["do"]]) if who else None
    if (
        what is None
        or who["do"] == "tell"
        and (what["to"] == who["client"] or what["to"] >= clients)
    ):
        return None
    if what.get("metadata") is not None:
        what["metadata"] = bytes.fromhex(what["metadata"])
    return SimpleNamespace(**who, **what)


def script_of(given):
    """Returns the script that these bytes stand for, or raises Refused."""
    top = members_of(value_of(given), TOP)
    if top is None or top["epoch_end"] >= top["recovery"]:
        raise Refused("BadLimit")
    for number, items in enumerate(top["rounds"]):
        for place, it in enumerate(items):
            items[place] = command_of(it, top["clients"])
            if items[place] is None:
                raise Refused(f"BadField {number} {place}")
    return SimpleNamespace(**top)
