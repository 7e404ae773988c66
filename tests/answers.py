"""Scripts that the program accepts, and what it prints for them, by the model and the examples."""
import os
import random

import drawn
from harness import EXAMPLES, ROOT, done, fault_of, read, run, written
from judge import Lawful, is_determined
from model import expected
from reader import HIGHEST, MOST_COMMANDS, MOST_ROUNDS, MOST_THROTTLES, script_of

SMALL, SPOILT = 300, 300


class Example:
    """A script of examples/: NAME.json prints NAME.out, with the arguments of NAME.args."""

    def __init__(self, name):
        beside = lambda ending: f"{EXAMPLES}/{name}.{ending}"
        self.name, self.given = name, read(beside("json"))
        self.arguments = (
            read(beside("args")).decode().split() if os.path.isfile(beside("args")) else []
        )
        self.wanted = done(read(beside("out")))

    def arguments_for(self, proxies):
        """Returns the arguments with this number of proxies in place of their own."""
        at = (
            self.arguments.index("--proxies")
            if "--proxies" in self.arguments
            else len(self.arguments)
        )
        return [*self.arguments[:at], "--proxies", str(proxies), *self.arguments[at + 2 :]]


def all_examples():
    return [
        Example(file[: -len(".json")])
        for file in sorted(os.listdir(EXAMPLES))
        if file.endswith(".json")
    ]


def examples(program):
    """The program prints the worked scripts' outputs, and so does the model."""
    for it in all_examples():
        yield it.name, fault_of(run([program, *it.arguments], it.given), it.wanted)
        yield f"{it.name} by the model", fault_of(
            expected(it.given, "--history" in it.arguments), it.wanted
        )


def worked(program):
    """The program and the model print what a hand calculation gives for worked.txt.

    There, a line `# NAME` stands before a script, a line `=> ARGUMENTS` parts it from what it
    prints with these arguments.
    """
    for case in read(f"{ROOT}/tests/worked.txt").decode().split("# ")[1:]:
        name, _, rest = case.partition("\n")
        given, _, rest = rest.partition("\n=>")
        arguments, _, wanted = rest.partition("\n")
        arguments, ends = arguments.split(), done(f"{wanted.rstrip()}\n".encode())
        yield name, fault_of(run([program, *arguments], given.encode()), ends)
        yield f"{name}, by the model", fault_of(
            expected(given.encode(), "--history" in arguments), ends
        )


def proxies(program):
    """No number of proxies changes what a worked script prints, since nobody races in it."""
    for it in all_examples():
        for count in (1, 2, 4, 16):
            fault = None if is_determined(script_of(it.given), count) else "its clients race"
            yield f"{it.name} with {count} proxies", fault or fault_of(
                run([program, *it.arguments_for(count)], it.given), it.wanted
            )


def compared(program, given, *arguments):
    """Runs a script with these arguments, and returns how that differs from what is lawful."""
    proxies = int(arguments[arguments.index("--proxies") + 1]) if "--proxies" in arguments else 1
    return Lawful(given, proxies).fault_of(
        run([program, *arguments], given), "--history" in arguments
    )


def random_scripts(program):
    """Small scripts of 1 to 4 clients with all commands, the same in each run."""
    for seed in range(SMALL):
        given = drawn.lawful(random.Random(seed)).encode()
        arguments = [[], ["--history"], ["--proxies", str(seed % 16 + 1), "--history"]][seed % 3]
        yield f"seed {seed}", compared(program, given, *arguments)


def overwritten_scripts(program):
    """Such scripts with members that later ones of their names overwrite mean the same."""
    for seed in range(SMALL):
        dice = random.Random(f"overwritten {seed}")
        plain = drawn.lawful(dice)
        given = drawn.overwritten(dice, plain).encode()
        proxies = dice.choice([1, 2, 16])
        ran = run([program, "--proxies", str(proxies)], given)
        yield f"seed {seed}", Lawful(plain.encode(), proxies).fault_of(ran, history=False)


def spoilt_scripts(program):
    """Such scripts with a word or a mark changed: for what most are refused, the model says."""
    for seed in range(SPOILT):
        dice = random.Random(f"spoilt {seed}")
        given = drawn.spoilt(dice, drawn.lawful(dice)).encode()
        yield f"seed {seed}", compared(program, given)


def do(what, client=0, **said):
    return {"do": what, "client": client, **said}


def several(commands, size):
    """Cuts commands into rounds of this size."""
    return [commands[at : at + size] for at in range(0, len(commands), size)]


def mixed(clients):
    drawing = drawn.Drawing(random.Random(7), clients)
    return [drawing.command() for _ in range(MOST_COMMANDS)]


def turn(at):
    """What one client of 64 does in a round, and whom it tells of it."""
    client = at % 64
    acts = [
        do("tell", client, to=(client + 1) % 64),
        do("ask", client, at=1000 * at),
        do("report", client, num=at // 64 + 1),
    ]
    return [*acts, do("tell", client, to=(client + 7) % 64)]


def large():
    """Names scripts of the most commands, with their rounds and further members."""
    half = MOST_COMMANDS // 2
    crowd, alone = mixed(64), mixed(1)
    asks = [do("ask", at=1000 * it) for it in range(MOST_COMMANDS)]
    late = [do("report", num=half - it) for it in range(half)]
    repeats = [do("reask", num=it % 300 + 1, at=0) for it in range(MOST_COMMANDS - 300)]
    throttles = [
        {"priority": "default", "tag": f"tag-{it}", "rate": it, "expires": it}
        for it in range(MOST_THROTTLES)
    ]
    tags = lambda it: [f"tag-{(it * step) % (MOST_THROTTLES + 100)}" for step in (1, 7, 1, 11, 3)]
    yield "mixed commands of 64 clients in one round", [crowd], {"clients": 64}
    yield "each command of 64 clients in a round of its own", several(crowd, 1), {"clients": 64}
    yield "mixed commands of one client in ten rounds", several(alone, 1000), {}
    yield "tells in each round", [turn(it) for it in range(MOST_COMMANDS // 4)], {"clients": 64}
    yield "tells alone, of 63 clients to one", [
        [do("tell", it % 63 + 1, to=0) for it in range(MOST_COMMANDS)]
    ], {"clients": 64}
    yield "reads of 5 tags under 1,000 throttles", [
        [do("grv", at=500, tags=tags(it)) for it in range(MOST_COMMANDS)]
    ], {"throttles": throttles}
    yield "reads alone", [[do("grv")] * MOST_COMMANDS], {}
    yield "asks alone", [asks], {}
    yield "each ask with its report", [
        [it for at in range(half) for it in (do("ask", at=9 * at), do("report", num=at + 1))]
    ], {}
    yield "reports from the last to the first", [[*asks[:half], *late]], {}
    yield "repeats of kept answers", [[*asks[:300], *repeats]], {}
    minima = [
        it
        for at in range(half // 2)
        for it in (do("report", num=half, min_known=at), do("grv", use_min=at % 2 == 0))
    ]
    yield "minima that rise alone, each with a read", [[*asks[:half], *minima]], {}


def crowd_at_all_limits(size):
    """Writes a script of this many bytes, with the most of all else and a text that is ignored."""
    throttles = [
        {"priority": "default", "tag": f"tag-{it}", "rate": it, "expires": HIGHEST}
        for it in range(MOST_THROTTLES)
    ]
    reads = [
        do("grv", it % 64, tags=[f"tag-{it % MOST_THROTTLES}"] * 5)
        for it in range(MOST_COMMANDS // 2)
    ]
    rounds = several([*mixed(64)[: MOST_COMMANDS // 2], *reads], 1)
    top = {
        "clients": 64, "normal": 100_000, "batch": 100_000, "room": 100_000, "elapsed": 10_000_000,
        "throttles": throttles,
    }
    empty = written(rounds, **top, note="")
    return written(rounds, **top, note="a" * (size - len(empty)))
