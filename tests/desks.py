"""Which GRV proxy a read goes to.

Each GRV proxy has a desk. Where its queue has room for one, two reads that meet there show.
"""
from answers import Example, do
from harness import fault_of, run, written
from model import expected
from races import AGAIN, both, turns

# Client 0 reads, and then in each round it and client 2.
AHEAD = [[do("grv", count=50)], *[[do("grv", count=50), do("grv", 2, count=50)]] * 20]
# Scripts that have one text in each schedule, though threads run. The first read of a client goes
# to the proxy of its number, and each further one to the next proxy.
TIGHT = {"room": 1, "normal": 1, "elapsed": 1000}
SURE = [
    ("a read ahead, then each round one of each to two proxies with room for one", 2, AHEAD,
     {"clients": 3, **TIGHT}),
    ("two clients and two proxies with room for one", 2, [both(do("grv", count=50))],
     {"clients": 2, **TIGHT}),
    ("16 clients and proxies with room for one", 16,
     [turns(16, 1, lambda who, _: do("grv", who, count=9))],
     {"clients": 16, "room": 1, "normal": 3}),
    ("64 clients and a proxy with room for them", 1, [turns(64, 3, lambda who, _: do("grv", who))],
     {"clients": 64, "room": 64, "normal": 1}),
]


def sure_texts(program):
    """Clients share rounds without a race: each read finds room, or comes after all reports."""
    for name, proxies, rounds, top in SURE:
        given = written(rounds, **top)
        wanted = expected(given, True)
        for time in range(AGAIN):
            yield f"{name}, run {time}", fault_of(
                run([program, "--history", "--proxies", str(proxies)], given), wanted
            )
    untold = Example("untold")
    for proxies in (1, 4):
        for time in range(AGAIN):
            yield f"untold, {proxies} proxies, run {time}", fault_of(
                run([program, *untold.arguments_for(proxies)], untold.given), untold.wanted
            )


# So many rounds in which the first clients read, one at each desk, and a round's options in turn.
TURNS = 400
CLIENTS = 64
KINDS = [
    {}, {"priority": "system"}, {"priority": "batch", "at": 9},
    {"lock_aware": True, "use_min": True, "tags": ["t"], "count": 101},
]


def a_read_each(proxies, turns):
    """Rounds in which each desk has one read: of the first clients, and then of all others too.

    The record was raised before.
    """
    yield [do("ask", at=0), do("ask", at=9), do("report", num=2)]
    parts = [(0, kind) for kind in range(turns)]
    parts += [(part, kind) for kind in range(len(KINDS)) for part in range(1, CLIENTS // proxies)]
    for part, kind in parts:
        opts = {"count": 9, **KINDS[kind % len(KINDS)]}
        yield [do("grv", part * proxies + who, **opts) for who in range(proxies)]


def each_desk(program):
    """As many clients read in each round as there are proxies with room for one.

    Two reads at one desk could find its queue full.
    """
    for proxies in range(2, 17):
        given = written(
            [*a_read_each(proxies, TURNS)], clients=CLIENTS, room=1, normal=3,
        )
        yield f"{proxies} proxies", fault_of(
            run([program, "--history", "--proxies", str(proxies)], given), expected(given, True)
        )
