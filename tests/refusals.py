"""Scripts that are refused, and the line that says why. Members of wrong values: edges.py."""
from edges import BAD, throttle
from harness import ASK, GRV, REPORT, command, fault_of, first_script, refused, round_of, run
from harness import script


def tried(program, cases, why=None):
    """Runs each case: a name, a text, and what it is refused for where that differs."""
    for name, text, *own in cases:
        given = text if isinstance(text, bytes) else text.encode()
        yield name, fault_of(run([program], given), refused(own[0] if own else why))


def cut(program):
    """Each proper beginning of the first script is no JSON."""
    whole = first_script()
    yield from tried(
        program, [(f"the first {at} bytes", whole[:at]) for at in range(len(whole))], "NotJson"
    )


GOOD = script(f"[{round_of(GRV)}]")
NO_JSON = [
    ("spaces alone", " \n\t"),
    ("a word", "script"),
    ("a byte 0", "\0"),
    ("a mark of byte order", "\ufeff" + GOOD),
    ("a second value", GOOD + "{}"),
    ("a letter behind", GOOD + "x"),
    ("a comma too many in an object", GOOD[:-1] + ",}"),
    ("a comma too many in a list", GOOD.replace("}]]", "},]]")),
    ("a missing comma", GOOD.replace(',"clients"', '"clients"')),
    ("another bracket", GOOD.replace("]]", "]}")),
    ("single quotes", GOOD.replace('"', "'")),
    ("a bare name", GOOD.replace('"clients"', "clients")),
    ("a comment", GOOD + "// done"),
    *((f"the number {it}", script(recovery=it))
      for it in ("0100", "+100", "100.", ".5", "1e", "NaN", "Infinity")),
    ("half a word", script(note="nul")),
    ("a line end in a text", script(note='"a\nb"')),
    ("an unknown escape", script(note='"\\x41"')),
    ("an escape of three digits", script(note='"\\u041"')),
    *((f"the bytes {it}", script(note='"?"').encode().replace(b"?", it))
      for it in (b"\xff\xfe", b"\xc3", b"\xed\xa0\x80")),
    ("bytes that are no UTF-8 in a name", GOOD.encode().replace(b"clients", b"client\x80")),
    ("half a surrogate pair alone", '"\\ud800"'),
    ("a text that is no UTF-8 alone", b'"\xff"'),
    ("bytes that are no UTF-8 behind", GOOD.encode() + b"\xff"),
    ("lists 127 deep, one not closed", "[" * 127 + "]" * 126),
    ("no JSON behind a fault of the top level", script(clients="0") + "}"),
    ("no JSON behind a fault of a command", script(BAD) + "}"),
]
# Values that are no JSON wherever they stand, also in a member that is ignored or overwritten.
NO_VALUES = [
    "[" * 127 + "]" * 127, '[{"a":' * 63 + "[1]" + "}]" * 63, "[" * 100_000 + "]" * 100_000,
    "1e309", "-1e309", "18e307", "1e99999999999", "123.4e400", "1" * 400, '"\\ud800"', '"\\udfff"',
    '"\\ud800x"', '"\\ud800\\u0041"', '"\\ud800\\ud800"', '"\\udc00\\ud800"', '"x\\uDBFF"',
]
# Where such a value is put.
CORNERS = [
    ("ignored", lambda text: script(f"[{round_of(GRV)}]", note=text)),
    ("overwritten", lambda text: GOOD.replace('"clients":', f'"clients":{text},"clients":')),
    ("ignored in a command", lambda text: script(f"[[{command('grv', note=text)}]]")),
    ("overwritten in a command",
     lambda text: script(f"[{round_of(command('ask', at=text + ',' + AT))}]")),
    ("ignored in a throttle", lambda text: script(throttles=f"[{throttle(note=text)}]")),
    ("behind a fault of the top level", lambda text: script(clients="0", note=text)),
]
AT = '"at":1'


def no_json(program):
    """What serde_json does not read is refused as NotJson."""
    yield from tried(program, NO_JSON, "NotJson")
    cases = [(f"{it[:20]}, {where}", put(it)) for it in NO_VALUES for where, put in CORNERS]
    yield from tried(program, cases, "NotJson")


def many(rounds, commands, what=GRV):
    """Writes rounds of which the first has these commands."""
    return "[" + ",".join([round_of(*[what] * commands), *["[]"] * (rounds - 1)]) + "]"


LIMITS = [
    *((f"no object: {it[:9]}", it) for it in (
        "[]", "5", "null", '"script"', "true", "[" * 127 + "]" * 127, f"[{GOOD}]")),
    ("an empty object", "{}"),
    ("names in capitals", script(clients=None, Clients="1")),
    ("clients twice, the last wrong", GOOD.replace('"clients":1', '"clients":1,"clients":0')),
    ("rounds twice, the last wrong", GOOD[:-1] + ',"rounds":5}'),
    ("epoch_end and recovery 0, a wrong command", script(BAD, epoch_end="0", recovery="0")),
    *((f"throttles [{it}]", script(BAD, throttles=f"[{throttle()},{it},{throttle()}]"))
      for it in ("{}", f"[{throttle()}]", throttle(tag='"t","tag":""'))),
    ("1,001 throttles", script(BAD, throttles=round_of(*[throttle()] * 1_001))),
    ("a wrong throttle, the last of 1,000",
     script(BAD, throttles=round_of(*[throttle()] * 999, throttle(rate="-1")))),
    ("10,001 rounds", script(many(10_001, 0))),
    ("10,001 rounds, wrong commands", script(many(10_001, 1, "5"))),
    ("10,001 commands in a round", script(many(1, 10_001))),
    ("10,001 commands in two rounds",
     script("[" + round_of(*[GRV] * 10_000) + "," + round_of(ASK) + "]")),
    ("10,001 commands in 5,001 rounds",
     script("[" + ",".join([round_of(GRV, ASK)] * 5_000 + [round_of(GRV)]) + "]")),
    ("10,001 commands of several clients", script(many(1, 10_001), clients="64")),
    ("10,001 wrong commands", script(many(1, 10_001, "5"))),
    ("a wrong command before the last of 10,000 rounds", script("[[5]," + "[]," * 9_998 + "{}]")),
]


def limits(program):
    """Faults of the top level, throttles and rounds are BadLimit, before those of commands."""
    yield from tried(program, LIMITS, "BadLimit")


WRONG_COMMANDS = [
    "5", "null", "[]", f"[{GRV}]", '"grv"', "{}", '{"client":0}', '{"do":"grv"}', command("commit"),
    command(""), command("GRV"), command("grv "), command("learn", **{"from": "1"}),
    '{"do":1,"client":0}', '{"do":["grv"],"client":0}', '{"do":"grv","Client":0}',
    command("ask", processed="1"), command("report", at="1"), command("tell", client="1"),
    command("tell", client="2", to="2"), '{"do":"grv","client":0,"do":"commit"}',
    '{"do":"grv","client":0,"client":3}', command("ask", at='1,"at":null'),
    command("grv", tags='[],"tags":5'), command("tell", to='1,"to":0'),
]
B = "5"
TO_ITSELF = command("tell", client="1", to="1")
LAST = command("grv", client="1")
# The first fault is named: the rounds, and the round and command said. There are two clients.
PLACES = [
    ("the first command", f"[[{B}]]", 0, 0),
    ("the last of a round", f"[[{GRV},{ASK},{B}]]", 0, 2),
    ("the second of three", f"[[{GRV},{B},{B}]]", 0, 1),
    ("behind empty rounds", f"[[],[],[{ASK},{GRV},{REPORT},{B}]]", 2, 3),
    ("a later round", f"[[{GRV}],[{ASK},{B},{B}],[{B}]]", 1, 1),
    ("an earlier round, at a later place", f"[[{GRV},{GRV},{GRV},{B}],[{B}]]", 0, 3),
    ("the first of two clients' faults, by place",
     f"[[{LAST},{TO_ITSELF},{command('tell', to='0')}]]", 0, 1),
    ("the first of two clients' faults, by round",
     f"[[{GRV}],[{LAST},{GRV},{LAST},{TO_ITSELF}],[{command('ask')}]]", 1, 3),
    ("a client that is not there, before a missing member",
     f"[[{command('grv', client='2')},{command('ask')}]]", 0, 0),
    ("the last of 10,000 commands of two clients",
     f"[{round_of(*[GRV, LAST] * 4_999, GRV, TO_ITSELF)}]", 0, 9_999),
    ("the last of 10,000 rounds", "[" + "[]," * 9_999 + f"[{B}]]", 9_999, 0),
    ("the 5,000th of its round", f"[[{GRV}],{round_of(*[ASK] * 4_999, B, *[GRV] * 100)}]", 1,
     4_999),
]


def fields(program):
    """Faults of commands are BadField with the first one's place, counted from 0."""
    placed = lambda text: script(
        f"[[{ASK}],[{GRV},{command('tell', client='2', to='0')},{text},{GRV}]]", clients="3"
    )
    yield from tried(program, [(it, placed(it)) for it in WRONG_COMMANDS], "BadField 1 2")
    yield from tried(
        program,
        [
            (name, script(rounds, clients="2"), f"BadField {at} {place}")
            for name, rounds, at, place in PLACES
        ],
    )
