"""Holds a sequencer and a GRV queue against the proved library, request by request, at random.

    python3 run.py [STEPS] [SEEDS]

The library is the oracle: it answers what FoundationDB's rules say, which is proved. The first step
at which the two part is printed, with both answers. The three bugs of bugs.py must be found.
"""
import random
import sys
from pathlib import Path

sys.path.insert(0, str(Path(__file__).resolve().parents[2] / "bindings" / "python" / "src"))

from fdb_read_version import Chain, GrvQueue, Priority, QueueConfig, Refused

from bugs import DrawsTwice, LetsBatchIn, LosesAReply
from grv import Grv
from sequencer import Sequencer

PROXIES = 3
CONFIG = QueueConfig(normal=100, batch=20, room=40)


def asks(rng):
    """Random requests for commit versions: new ones, retries, some too early, some unknown."""
    latest, moment = [0] * PROXIES, 0
    while True:
        proxy, moment = rng.randrange(PROXIES), moment + rng.choice([0, 1, 250, 6_000_000])
        kind = rng.random()
        num = latest[proxy] + 1
        if kind < 0.3:
            num = rng.randint(max(0, num - 4), num)
        elif kind < 0.35:
            num += rng.randint(1, 3)
        if num == latest[proxy] + 1:
            latest[proxy] = num
        processed = max(0, latest[proxy] - rng.randint(1, 4))
        other = PROXIES + 1 if rng.random() < 0.01 else proxy
        yield "ask", dict(proxy=other, num=num, at=moment, processed=processed)
        if other != proxy and num == latest[proxy]:
            latest[proxy] -= 1


def operations(rng):
    """Random offers, windows and pops; and new rates, and throttles that are set and forgotten."""
    for payload in range(1 << 60):
        kind = rng.random()
        if kind < 0.15:
            yield "window", dict(elapsed=rng.choice([0, 1000, 5000, 100_000, 10_000_001]))
        elif kind < 0.17:
            yield "pop", {}
        elif kind < 0.20:
            normal = rng.choice([100, 100, 100, 50, 1, 0])
            batch = rng.choice([20, 20, 1, 0, 100_001])
            yield "set_rates", dict(normal=normal, batch=batch)
        elif kind < 0.35:
            yield throttling(rng)
        else:
            usual = rng.random() < 0.95
            count = rng.randint(1, 12) if usual else rng.choice([0, 110, 111, 100_001])
            yield "offer", dict(count=count, payload=payload, priority=rng.choice(list(Priority)))


def throttling(rng):
    """A throttle is set, asked for or forgotten, at a random moment."""
    moment, kind = rng.randrange(10), rng.random()
    if kind < 0.2:
        return "forget_throttles", dict(at=moment)
    it = dict(priority=rng.choice(list(Priority)), tag=b"t" * rng.choice([0, 1, 16, 17]))
    if kind < 0.5:
        return "set_throttle", dict(it, rate=rng.randrange(1 << 64), expires=moment)
    return "throttle", dict(it, tag=it["tag"][:16], at=moment)


def answer(subject, name, arguments):
    try:
        return getattr(subject, name)(**arguments)
    except Refused as refused:
        return refused


def first_difference(theirs, oracle, calls, steps):
    """The first step at which they part, as text, or None."""
    for step, (name, arguments) in zip(range(1, steps + 1), calls):
        theirs_says, oracle_says = answer(theirs, name, arguments), answer(oracle, name, arguments)
        if theirs_says != oracle_says:
            given = ", ".join(f"{key}={value}" for key, value in arguments.items())
            lines = [f"step {step}: {name}({given})", f"  it says   {said(theirs_says)}"]
            return "\n".join([*lines, f"  it should {said(oracle_says)}"])
    return None


def said(it):
    return f"refused {it}" if isinstance(it, Refused) else repr(it)


def sequencer_at(seed, kind, steps):
    with Chain(100, 200, PROXIES) as oracle:
        return first_difference(kind(100, 200, PROXIES), oracle, asks(random.Random(seed)), steps)


def queue_at(seed, kind, steps):
    with GrvQueue(CONFIG) as oracle:
        return first_difference(kind(CONFIG), oracle, operations(random.Random(seed)), steps)


def searched(play, kind, steps, seeds):
    """The seed and the difference of the first seed that shows one."""
    for seed in range(seeds):
        found = play(seed, kind, steps)
        if found is not None:
            return seed, found
    return None


def main():
    steps, seeds = [int(it) for it in (sys.argv[1:] + ["2000", "10"][len(sys.argv) - 1 :])]
    wrong = 0
    for play, kind, has_bug in (
        (sequencer_at, Sequencer, False),
        (queue_at, Grv, False),
        (sequencer_at, LosesAReply, True),
        (sequencer_at, DrawsTwice, True),
        (queue_at, LetsBatchIn, True),
    ):
        found = searched(play, kind, steps, seeds)
        wrong += (found is not None) != has_bug
        if found is None:
            print(f"{kind.__name__}: no difference in {seeds} times {steps} steps")
        else:
            print(f"{kind.__name__}: seed {found[0]}, {found[1]}")
    return 1 if wrong else 0


if __name__ == "__main__":
    sys.exit(main())
