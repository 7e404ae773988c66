"""Scripts whose clients race, with 1 to 16 proxies: each text that is printed is lawful."""
import json
import random
import resource

import drawn
from answers import MOST_COMMANDS, do
from harness import run, written
from judge import Lawful

RANDOM, AGAIN = 400, 25
# The seconds of processor time that a script at its limits may take; it is killed behind them.
LIMIT_SECONDS = 20


def judged(program, given, proxies, **how):
    """Runs a script with its history, and returns how that is not lawful."""
    return Lawful(given, proxies).fault_of(
        run([program, "--history", "--proxies", str(proxies)], given, **how)
    )


def random_races(program):
    """Random scripts of 2 to 64 clients that share rounds, with little room and low limits."""
    for seed in range(RANDOM):
        dice = random.Random(f"race {seed}")
        given, proxies = json.dumps(drawn.racing(dice)).encode(), dice.choice(
            [1, 2, 4, 16, dice.randrange(1, 17)]
        )
        yield f"seed {seed} with {proxies} proxies", judged(program, given, proxies)


def commit(client, num, **said):
    """A client's commit: it asks for a version and reports it."""
    return [do("ask", client, at=1000 * num), do("report", client, num=num, **said)]


def both(*commands):
    """The commands of client 0 and the same of client 1."""
    return [{**it, "client": client} for client in (0, 1) for it in commands]


def turns(clients, times, what):
    """As many calls of each client, by a function of the client and the number of the call."""
    return [what(who, at) for who in range(clients) for at in range(times)]


TOLD = [
    [*both(*commit(0, 1)), do("tell", 0, to=1), do("tell", 1, to=0)],
    both(do("grv"), do("tell", to=2)),
]
LOCKS = [
    [
        do("ask", at=5), *commit(0, 2, locked=True),
        *turns(1, 3, lambda _, at: do("grv", 1, lock_aware=at == 1)), *[do("grv", 2)] * 3,
    ]
]
RANKED = [
    turns(
        9,
        10,
        lambda who, at: do("grv", who, priority=["system", "default", "batch"][(who + at) % 3]),
    )
]
MINIMA = [
    [
        it
        for who in range(3)
        for it in (
            *commit(who, 1, min_known=who),
            do("report", who, num=1, min_known=30 * who),
            do("grv", who, use_min=True),
        )
    ]
]
REPEATED = [
    [
        it
        for who in range(4)
        for it in (do("ask", who, at=9), do("reask", who, num=1, at=99), *commit(who, 2))
    ]
]
# Worked scripts of clients that race, and the further members of their top level.
WORKED = {
    "two clients ask, report and read": ([both(*commit(0, 1), do("grv"))], {"clients": 2}),
    "each tells the other and reads": (TOLD, {"clients": 3}),
    "one reports and one reads": (
        [[*commit(0, 1), *commit(0, 2), *[do("grv", 1)] * 6]], {"clients": 2}
    ),
    "a report that locks": (LOCKS, {"clients": 3}),
    "reads through a room of one": (
        [turns(8, 10, lambda who, _: do("grv", who))], {"clients": 8, "room": 1, "normal": 1}
    ),
    "priorities through a room of two": (
        RANKED, {"clients": 9, "room": 2, "normal": 2, "batch": 1}
    ),
    "repeats beside commits": (REPEATED, {"clients": 4}),
    "minima that rise alone": (MINIMA, {"clients": 3}),
    "the last versions": (
        [turns(4, 3, lambda who, at: do("ask", who, at=at))], {"clients": 4, "recovery": 2**63 - 6}
    ),
}


def worked_races(program):
    """Worked scripts, time and again with 1, 2 and 16 proxies."""
    for name, (rounds, top) in WORKED.items():
        given = written(rounds, **top)
        for proxies in (1, 2, 16):
            for time in range(AGAIN):
                yield f"{name}, {proxies} proxies, run {time}", judged(program, given, proxies)


def limits():
    """Names scripts at their limits, with the number of proxies, the rounds and further members."""
    third = lambda who, at: (
        do("ask", who, at=9 * at), do("report", who, num=at // 3 + 1), do("grv", who)
    )[at % 3]
    reads = lambda clients: [
        [do("grv", who) for _ in range(MOST_COMMANDS // clients) for who in range(clients)]
    ]
    yield "10,000 rounds of one command", 4, [[third(0, at)] for at in range(MOST_COMMANDS)], {}
    yield "10,000 rounds of one command, of 64 clients in turn", 16, [
        [third(at % 64, at // 64)] for at in range(MOST_COMMANDS)
    ], {"clients": 64}
    yield "64 clients in each of 150 rounds", 4, [
        [third(who, at) for who in range(64)] for at in range(150)
    ], {"clients": 64}
    yield "10,000 reads of one client through one proxy of room 1", 1, reads(1), {"room": 1}
    yield "10,000 reads of 64 clients through one proxy of room 1", 1, reads(64), {
        "clients": 64, "room": 1, "normal": 1
    }
    yield "10,000 reads of 64 clients through 16 proxies of room 1", 16, reads(64), {
        "clients": 64, "room": 1, "normal": 1
    }
    yield "commits and reads of 64 clients in one round", 16, [
        [third(who, at) for at in range(150) for who in range(64)]
    ], {"clients": 64}
    # Reads that wait for very many windows: each adds `elapsed` times `normal` millionths of two
    # transactions to a budget.
    slow, many = {"normal": 1, "elapsed": 1}, lambda count: [
        [do("grv", count=count)] * MOST_COMMANDS
    ]
    yield "a read of 100,000 transactions for which windows of a microsecond save", 1, [
        [do("grv", count=100_000)]
    ], slow
    yield "a batch read of 11 for which windows of a microsecond save", 1, [
        [do("grv", priority="batch", count=11)]
    ], {**slow, "batch": 1}
    yield "10,000 reads of one transaction at a limit of one", 1, many(1), {"normal": 1}
    yield "10,000 reads of 100,000 transactions for which windows of a microsecond save", 1, many(
        100_000
    ), slow


def at_limits(program):
    """Scripts at their limits end in time, and with a lawful text."""
    limit = lambda: resource.setrlimit(resource.RLIMIT_CPU, (LIMIT_SECONDS, LIMIT_SECONDS))
    for name, proxies, rounds, top in limits():
        yield name, judged(program, written(rounds, **top), proxies, preexec_fn=limit)
