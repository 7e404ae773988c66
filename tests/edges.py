"""Both sides of each bound of a script, and what of it may be left out, ignored or overwritten."""
from harness import ASK, EXAMPLES, GRV, DONE, command, done, fault_of, first_output, members
from harness import refused, round_of, run, script
from model import expected
from reader import HIGHEST, LAST_VERSION, MOST_ROUNDS, MOST_THROTTLES

ABOVE_64_BITS = HIGHEST + 1


def throttle(**changed):
    """Writes a throttle from the JSON texts of its members."""
    right = {"priority": '"default"', "tag": '"t"', "rate": "5", "expires": "6"}
    return members(**{**right, **changed})


def one(*commands):
    return f"[{round_of(*commands)}]"


ONE, TWO, BAD = one(GRV), [ASK, ASK], "[[5]]"


def with_throttle(name, text, tag='"t"'):
    """Writes a script of one throttle, and a read of its tag or of another one."""
    read = command("grv", at="5", tags=f"[{text or tag if name == 'tag' else tag}]")
    return script(one(read), throttles=f"[{throttle(**{name: text})}]")


def with_command(do, name, text, clients="64"):
    last = command(do, **{**RIGHT.get(do, {}), name: text})
    return script(one(*TWO, last, command("grv", lock_aware="true")), clients=clients)


# A right value of each required member of a command.
RIGHT = {
    "ask": {"at": "1"}, "reask": {"num": "1", "at": "1"}, "report": {"num": "2"},
    "tell": {"to": "1"},
}
# Values of each kind. Where one is right for a member, it stands there.
KINDS = ("-1", "-0", "1.0", "1.5", "1e3", str(ABOVE_64_BITS), '"1"', "null", "true", "[]", "{}")
# Of each member of the top level: values that are right, and values that are not.
TOP = {
    "epoch_end": ((0, 99), (100, 101, HIGHEST)),
    "recovery": ((1, LAST_VERSION), (0, LAST_VERSION + 1, HIGHEST)),
    "clients": ((1, 64), (0, 65, HIGHEST)),
    "normal": ((1, 100_000), (0, 100_001, HIGHEST)),
    "batch": ((0, 100_000), (100_001, HIGHEST)),
    "room": ((1, 100_000), (0, 100_001, HIGHEST)),
    "elapsed": ((1, 10_000_000), (0, 10_000_001, HIGHEST)),
    "throttles": (("[]",), ("[0]", "[null]", "[[]]", '["t"]')),
    "rounds": (("[]", "[[]]"), ("[5]", "[{}]", '["x"]', "[[],{}]", "[[5],5]")),
}
REQUIRED = ("epoch_end", "recovery", "clients", "rounds")
# The same of texts. A tag has 1 to 16 letters from ! to ~.
TAGS = (
    ('"t"', '"1"', '"0123456789abcdef"', '"!~"', '"\\"\\\\\\/\\u0074"'),
    ('""', '"0123456789abcdefg"', '" "', '"a b"', '"\\u007f"', '"\x7f"', '"\\u0000"', '"\\n"',
     '"é"', '"éééééééé"', '"\\u0100"', '"😀"'),
)
PRIORITIES = (
    ('"system"', '"default"', '"batch"'), ('"high"', '"Default"', '"default "', '""', '["batch"]')
)
DIGITS = "0102030405060708090a"
METADATA = (
    ("null", *(f'"{it}"' for it in (
        "0" * 20, "f" * 20, "0123456789abcdef0123", "0123456789ABCDEF0123", "aBcDeFAbCdEf01020304",
        "0102030405060708090\\u0061", "00000000000000000001", "00000000000000000100",
        "00000000000000010000",
    ))),
    ("7", f'["{DIGITS}"]', '""', '"none"', *(f'"{it}"' for it in (
        DIGITS[:-1], f"{DIGITS}b", DIGITS * 2, f"-{DIGITS[1:]}", f"+{DIGITS[1:]}", f" {DIGITS[1:]}",
        f"{DIGITS[:-1]} ", f" {DIGITS}", f"0x{DIGITS}", f"{DIGITS[:8]} {DIGITS[9:]}",
        *(f"{DIGITS[:-1]}{it}" for it in "gG`@:/"), f"{DIGITS[:-1]}\\u0000",
        # (digits that are not ASCII, as so many characters or as so many bytes)
        f"{DIGITS[:-1]}٣", f"{DIGITS[:-2]}٣", f"{DIGITS[:-3]}１", "é" * 10, f"{DIGITS[:-1]}\\u0661",
    ))),
)
NUMBER, FLAG = ((0, HIGHEST), ()), (("true", "false"), ("0", '"true"', "[true]"))
THROTTLES = {"priority": PRIORITIES, "tag": TAGS, "rate": NUMBER, "expires": NUMBER}
COMMANDS = {
    "grv": {
        "at": NUMBER, "priority": PRIORITIES, "count": ((0, 1, 100_000, 100_001, HIGHEST), ()),
        "tags": (('["t","u","t","u","t"]', "[]"),
                 ('["t","t","t","t","t","t"]', '[["t"]]', *(f'["t",{it}]' for it in TAGS[1]))),
        "lock_aware": FLAG, "use_min": FLAG, "client": ((0, 63), (64, HIGHEST)),
    },
    "ask": {"at": NUMBER, "processed": NUMBER},
    "reask": {"num": ((0, 1, 2, 3, 4, HIGHEST), ()), "at": NUMBER, "processed": NUMBER},
    "report": {
        "num": ((0, 1, 2, 3, HIGHEST), ()), "metadata": METADATA, "locked": FLAG,
        "min_known": ((0, 1, 100, 101, 102, HIGHEST), ()),
    },
    "tell": {"to": ((1, 63), (0, 64, HIGHEST))},
}


def bounds():
    """Each member with each of its values: a name, a script, and why it is refused, or None."""
    for name, both in TOP.items():
        # (its fault comes before that of a wrong command)
        put = lambda it, is_right: script(**{"rounds": ONE if is_right else BAD, name: it})
        yield from sides(name, both, put, "BadLimit", name in REQUIRED)
    for name, both in THROTTLES.items():
        put = lambda it, _: with_throttle(name, it)
        yield from sides(f"a throttle's {name}", both, put, "BadLimit", True)
    for do, own in COMMANDS.items():
        for name, both in own.items():
            put = lambda it, _: with_command(do, name, it)
            is_required = name == "client" or name in RIGHT.get(do, {})
            yield from sides(f"{do}, {name}", both, put, "BadField 0 2", is_required)
    for clients in ("1", "2"):
        yield f"the first of {clients}", with_command("grv", "client", "0", clients), None
        yield f"beyond {clients}", with_command("grv", "client", clients, clients), "BadField 0 2"
        yield f"told beyond {clients}", with_command("tell", "to", clients, clients), "BadField 0 2"


def sides(name, both, put, why, is_required):
    right, wrong = ([str(it) for it in values] for values in both)
    yield from ((f"{name} {it}", put(it, True), None) for it in right)
    wrong += [it for it in KINDS if it not in right]
    yield from ((f"{name} {it}", put(it, False), why) for it in wrong)
    yield f"no {name}", put(None, not is_required), why if is_required else None


# What stands in members of no meaning, or of one elsewhere.
IGNORED = (
    "null", "true", "-1.5e3", '"\\u00e9\\n"', '"é"', '[[1,{}],"x"]', '{"rounds":5}',
    '"\\ud83d\\ude00"', f'"{"[" * 200}"',
    "[1e308,-1e308,1e-400,1e-99999999999,0e999,0e99999999999,-0,-0.0,18446744073709551616]",
)


def ignoring(text):
    names = ("note", "num", "to", "processed", "locked", "metadata", "min_known")
    read = command("grv", **dict.fromkeys(names, text))
    other = throttle(note=text, at=text, count=text)
    return script(one(read), throttles=f"[{other}]", note=text, Clients=text, at=text, tags=text)


ACCEPTED = [
    ("no rounds", script()),
    ("a round without commands", script("[[]]")),
    ("the greatest epoch_end and recovery",
     script(ONE, epoch_end=str(LAST_VERSION - 1), recovery=str(LAST_VERSION))),
    ("the last of 64 clients tells", script(one(command("tell", client="63", to="0")),
                                            clients="64")),
    ("a read that asks for the minimum, before any report",
     script(one(command("grv", use_min="true")))),
    ("the moment of expiry", with_throttle("expires", "5")),
    ("a throttle of another tag", with_throttle("rate", "5", '"T"')),
    ("spaces around", " \t\r\n" + script(ONE) + "\n \t\r"),
    ("spaces within", script(ONE).replace(",", " ,\n").replace(":", "\t: ").replace("[", "[ ")),
    ("escapes in names and texts", script(ONE).replace('"do":"grv"', '"d\\u006f":"g\\u0072v"')
     .replace("rounds", "ro\\u0075nds")),
    *((f"ignored members {it[:20]}", ignoring(it)) for it in IGNORED),
    ("an ignored list, 127 deep with the script", script(ONE, note="[" * 126 + "]" * 126)),
    ("an ignored object, 127 deep with the script",
     script(ONE, note='{"a":' * 125 + "[]" + "}" * 125)),
    ("an ignored list, 127 deep with its command",
     script(one(command("grv", note="[" * 123 + "]" * 123)))),
    ("an overwritten member, 127 deep",
     script(ONE, clients="[" * 126 + "]" * 126 + ',"clients":1')),
    ("members in another order",
     '{"rounds":[[{"client":0,"do":"grv"}]],"clients":1,"recovery":100,"epoch_end":0}'),
    ("recovery twice", script(ONE, recovery='7,"recovery":100')),
    ("rounds twice", script(f'{BAD},"rounds":{ONE}')),
    ("throttles twice", script(ONE, throttles='5,"throttles":[]')),
    ("a throttle's tag twice", with_throttle("rate", '5,"tag":"","tag":"t"')),
    ("do twice", script(ONE).replace('"do":', '"do":"other","do":')),
    ("client twice", script(ONE).replace('"client":0', '"client":9,"client":0')),
    ("a moment twice", script(one(ASK)).replace('"at":', '"at":-1,"at":')),
    ("metadata twice", with_command("report", "metadata", f'7,"metadata":"{DIGITS}"')),
    ("the most rounds", script("[" + ",".join(["[]"] * MOST_ROUNDS) + "]")),
    ("the most throttles", script(ONE, throttles=round_of(*[throttle()] * MOST_THROTTLES))),
]


def accepted(program):
    """Scripts at the edges of what is accepted print what the model says; beyond, it is refused."""
    for name, text, why in [*bounds(), *((name, text, None) for name, text in ACCEPTED)]:
        given = text.encode()
        wanted = refused(why) if why else expected(given)
        is_known = bool(why) or wanted.status == DONE
        fault = fault_of(run([program], given), wanted)
        yield name, fault or (None if is_known else "the model refuses it")
    with open(f"{EXAMPLES}/first.json", "rb") as it:
        yield "a file as input", fault_of(run([program], stdin=it), done(first_output()))
