"""Random scripts, the same from the same dice: lawful, overwritten and spoilt ones."""
import json
import re

from reader import HIGHEST, LAST_VERSION

TAGS = ["t", "u", "!~", '"\\/', "sixteen-bytes-ab"]
PRIORITIES = ["default", "default", "batch", "system"]
MOMENTS = [0, 1, 4999, 5000, 10**6, HIGHEST - 1, HIGHEST]
STEPS = [0, 1, 7, 1000, 4_999_999, 5_000_000, 5_000_001, 10**9, -3, -(10**7)]
RECOVERIES = [
    1, 100, 100, 100, 10**9, 10**9, LAST_VERSION - 20_000_000, LAST_VERSION - 6, LAST_VERSION
]
ACTS = ["grv", "ask", "ask", "reask", "report", "report", "tell"]
COUNTS = [0, 1, 100_001, HIGHEST]
# What may be said of the queue; no read that is let in waits for long, since its count is 1.
QUEUE = {
    "normal": [1, 100_000], "batch": [0, 100_000], "room": [1, 100_000], "elapsed": [1, 10_000_000]
}
# Minimum known committed versions of reports, some of them above the version reported.
MINIMA = [
    0, 0, 1, 2, 99, 100, 101, 102, 1107, 10**9, LAST_VERSION - 20_000_000, LAST_VERSION - 6,
    LAST_VERSION, HIGHEST,
]
# Metadata versions: none, least, greatest, two that differ in their last byte, one in capitals.
METADATA = [
    None, None, "0" * 20, "f" * 20, "0102030405060708090a", "0102030405060708090b",
    "0A1B2C3D4E5F60718293",
]
IGNORED = {"note": {"client": [None, 1e-3]}, "to ": "é😀\n", "Do": -1, "": [[], {}]}


class Drawing:
    """Draws the commands of some clients.

    It counts what each has asked for, so that numbers are old, new or too high.
    """

    def __init__(self, dice, clients, acts=ACTS, counts=COUNTS):
        self.dice, self.clients, self.acts, self.counts = dice, clients, acts, counts
        self.moment, self.asks = dice.choice([0, 10**6, HIGHEST - 10**7]), [0] * clients

    def at(self):
        self.moment = min(max(self.moment + self.dice.choice(STEPS), 0), HIGHEST)
        return self.moment

    def num(self, client):
        asks = self.asks[client]
        lately = [asks, asks, asks - 1, asks + 1, self.dice.randrange(asks + 2)]
        return (
            max(0, self.dice.choice(lately))
            if self.dice.random() < 0.95
            else self.dice.choice([0, asks + 2, HIGHEST])
        )

    def processed(self, client):
        return self.dice.choice([0, 0, 0, max(0, self.asks[client] - 2), self.num(client)])

    def grv(self, _):
        tags = [self.dice.choice(TAGS) for _ in range(self.dice.choice([0, 1, 2, 5]))]
        count, priority, at = (
            self.dice.choice(self.counts), self.dice.choice(PRIORITIES), self.dice.choice(MOMENTS)
        )
        lock_aware, use_min = self.dice.choice([True, False]), self.dice.choice([True, False])
        return {}, {
            "at": at, "priority": priority, "count": count, "tags": tags, "lock_aware": lock_aware,
            "use_min": use_min,
        }

    def ask(self, client):
        self.asks[client] += 1
        return {"at": self.at()}, {"processed": self.processed(client)}

    def reask(self, client):
        num = self.num(client)
        self.asks[client] += num == self.asks[client] + 1
        return {"num": num, "at": self.at()}, {"processed": self.processed(client)}

    def report(self, client):
        metadata = self.dice.choice(METADATA)
        locked, min_known = self.dice.random() < 0.4, self.dice.choice(MINIMA)
        return {"num": self.num(client)}, {
            "locked": locked, "metadata": metadata, "min_known": min_known
        }

    def tell(self, client):
        return {"to": self.dice.choice([it for it in range(self.clients) if it != client])}, {}

    def command(self):
        client = self.dice.randrange(self.clients)
        do = self.dice.choice(self.acts)
        do = "grv" if do == "tell" and self.clients == 1 else do
        if not self.asks[client] and do in ("reask", "report") and self.dice.random() < 0.7:
            do = "ask"
        required, optional = getattr(self, do)(client)
        given = {**some(self.dice, optional, 0.6), **some(self.dice, IGNORED, 0.05)}
        return shuffled(self.dice, {"do": do, "client": client, **required, **given})


def some(dice, members, share):
    return {name: it for name, it in members.items() if dice.random() < share}


def shuffled(dice, members):
    return dict(dice.sample(list(members.items()), len(members)))


def in_rounds(dice, commands):
    """Cuts the commands into rounds, some of them empty."""
    cuts = sorted(dice.randrange(len(commands) + 1) for _ in range(dice.randrange(6)))
    return [commands[a:b] for a, b in zip([0, *cuts], [*cuts, len(commands)])]


def throttles(dice, count):
    draw = lambda: {
        "priority": dice.choice(PRIORITIES), "tag": dice.choice(TAGS),
        "rate": dice.choice([0, 5, HIGHEST]), "expires": dice.choice(MOMENTS),
    }
    return [shuffled(dice, draw()) for _ in range(count)]


def lawful(dice):
    """Draws the text of a script of 1 to 4 clients and up to 40 commands."""
    recovery = dice.choice(RECOVERIES)
    drawing = Drawing(dice, dice.choice([1, 2, 3, 4]))
    rounds = in_rounds(dice, [drawing.command() for _ in range(dice.randrange(1, 41))])
    required = {
        "epoch_end": dice.choice([0, recovery // 2, recovery - 1]), "recovery": recovery,
        "clients": drawing.clients, "rounds": rounds,
    }
    queue = {name: dice.choice(edges) for name, edges in QUEUE.items()}
    optional = {**queue, "throttles": throttles(dice, dice.choice([0, 1, 6, 12])), **IGNORED}
    members = shuffled(dice, {**required, **some(dice, optional, 0.7)})
    return json.dumps(
        members, ensure_ascii=dice.choice([True, False]), indent=dice.choice([None, 0, "\t"])
    )


def racing(dice):
    """Draws the values of a script of 2 to 64 clients, mostly with little room and low limits.

    Counts are as large as a read can have that starts within a few hundred windows.
    """
    clients, normal = dice.choice([2, 2, 3, 4, 8, 16, 64]), dice.choice([1, 2, 10, 1000])
    acts = dice.choice(
        [
            ACTS, ["grv"], ["grv"] * 12 + ACTS, ["ask", "report", "grv"],
            ["ask", "ask", "report", "report", "grv", "tell"],
        ]
    )
    drawing = Drawing(
        dice, clients, acts,
        dice.choice([[1], [1, 1, 2, normal + 10], [0, 1, 1, 30, normal + 11, 100_001]]),
    )
    recovery = dice.choice(RECOVERIES)
    rounds = in_rounds(
        dice, [drawing.command() for _ in range(dice.choice([10, 40, 40, 40 + 3 * clients]))]
    )
    queue = {
        "normal": normal, "batch": dice.choice([0, 1, 3, 500]),
        "room": dice.choice([1, 1, 2, 3, 7, clients, 1000]), "elapsed": 10**6,
    }
    return {
        "epoch_end": recovery // 2, "recovery": recovery, "clients": clients, **queue,
        "throttles": throttles(dice, 6), "rounds": rounds,
    }


TOKEN = re.compile(r'"[^"\\]*(?:\\.[^"\\]*)*"|[-+.\w]+|[][{},:]')
MARKS = list("[]{},:")
NUMBERS = [
    "0", "1", "2", "63", "64", "65", "-0", "-1", "1.0", "1e3", "18446744073709551615",
    "18446744073709551616", "1e309", "01",
]
LISTS = [
    "[]", "{}", "[[]]", '["t"]', '["t","t","t","t","t","t"]', "[{}]", "5", "null", "true", "false"
]
TEXTS = [
    '""', '" "', '"t"', '"\\u0074"', '"\\ud800"', '"seventeen-bytes-ab"', '"\u00e9"', '"grv"',
    '"ask"', '"reask"', '"tell"', '"batch"',
]
TEXTS += [
    f'"{it}"'
    for it in (
        "00000000000000000000", "fFfFfFfFfFfFfFfFfFfF", "0102030405060708090",
        "0102030405060708090ab", "01020304050607080 0a", "01020304050607080é0a",
    )
]
NAMES = [
    '"do"', '"client"', '"clients"', '"at"', '"num"', '"to"', '"rounds"', '"throttles"', '"tags"',
    '"tag"', '"locked"', '"metadata"', '"min_known"', '"use_min"', '"priority"', '"x"',
]


def spoilt(dice, text):
    """Changes one or two words or marks of a text.

    Most such texts are refused, and some mean something else.
    """
    tokens = TOKEN.findall(text)
    for _ in range(dice.choice([1, 1, 2])):
        is_name = lambda at: tokens[at + 1 : at + 2] == [":"]
        words = [at for at, token in enumerate(tokens) if token not in MARKS]
        word, anywhere, change = dice.choice(words), dice.randrange(len(tokens)), dice.random()
        if change < 0.8:
            tokens[word] = dice.choice(
                NAMES if is_name(word) else dice.choice([NUMBERS, LISTS, TEXTS])
            )
        elif change < 0.9:
            tokens[word] = tokens[dice.choice([at for at in words if is_name(at) == is_name(word)])]
        elif change < 0.95:
            del tokens[anywhere]
        else:
            tokens.insert(anywhere, dice.choice(tokens))
    return "".join(tokens)


def overwritten(dice, text):
    """Writes a script that means the same, with overwritten members, and names by their codes."""
    return rewritten(dice, json.loads(text))


def rewritten(dice, value):
    if isinstance(value, list):
        return "[" + ",".join(rewritten(dice, it) for it in value) + "]"
    if not isinstance(value, dict):
        return json.dumps(value)
    earlier = [(name, anything(dice)) for name in value for _ in range(dice.choice([0, 0, 1, 2]))]
    dice.shuffle(earlier)
    members = [*earlier, *((name, rewritten(dice, it)) for name, it in value.items())]
    return "{" + ",".join(f"{spelt(dice, name)}:{text}" for name, text in members) + "}"


def spelt(dice, name):
    return (
        json.dumps(name)
        if dice.random() < 0.9
        else '"' + "".join(f"\\u{ord(it):04x}" for it in name) + '"'
    )


SCRIPT_NAMES = ["rounds", "throttles", "tags", "client", "do", "at", "note"]


def anything(dice, deep=0):
    """Draws the text of a JSON value, with names of a script in its objects."""
    kind = dice.randrange(3 if deep < 3 else 1)
    if kind == 0:
        return dice.choice(["0", "-1", "1.5e3", "null", "true", '"ask"', "[]", "{}"])
    inner = [anything(dice, deep + 1) for _ in range(dice.randrange(4))]
    named = lambda text: f"{spelt(dice, dice.choice(SCRIPT_NAMES))}:{text}"
    return "[" + ",".join(inner) + "]" if kind == 1 else "{" + ",".join(map(named, inner)) + "}"
