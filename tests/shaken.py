"""Scripts whose clients race, while their threads yield and sleep at random places."""
import itertools
import json
import os
import random
import tempfile

import drawn
from answers import do
from harness import ROOT, run, written
from judge import Lawful
from memory import built
from races import WORKED, commit

SOURCE = f"{ROOT}/tests/shake.c"
RANDOM, AGAIN = 150, 8
# A race of few calls, how often it is run on one core, and how many texts there have to be, which
# may take some more runs.
CALLS = lambda who: (*commit(who, 1), do("grv", who), *commit(who, 2))
SMALL = [[it for who in range(3) for it in CALLS(who)]]
SMALL_RUNS, TEXTS, MOST_RUNS = 40, 6, 400


def ran_shaken(program, preloaded, given, proxies, seed, cores=None):
    """Runs a script with its history and this seed, on all cores or on some of them."""
    words = [program, "--history", "--proxies", str(proxies)]
    how = {"env": {"LD_PRELOAD": preloaded, "SHAKE": str(seed)}}
    if cores:
        how["preexec_fn"] = lambda: os.sched_setaffinity(0, cores)
    return run(words, given, **how)


def one_core():
    return {min(os.sched_getaffinity(0))}


def shaken(program):
    """Random and worked scripts whose threads are held up, some of them on one core alone."""
    with tempfile.TemporaryDirectory(prefix="shake-") as folder:
        preloaded = built(folder, SOURCE)
        for name, given, proxies, seed in cases():
            cores = one_core() if seed % 4 == 0 else None
            said = f"{name}, seed {seed}{', on one core' if cores else ''}"
            ran = ran_shaken(program, preloaded, given, proxies, seed, cores)
            yield said, Lawful(given, proxies).fault_of(ran)
        yield from often(program, preloaded)


def cases():
    """Yields a name, a script, how many proxies it is run with, and a seed."""
    for seed in range(RANDOM):
        dice = random.Random(f"shaken {seed}")
        given = json.dumps(drawn.racing(dice)).encode()
        yield "a random script", given, dice.choice([1, 2, 4, 16]), seed
    for name, (rounds, top) in WORKED.items():
        for seed in range(AGAIN):
            yield name, written(rounds, **top), 1 + seed % 3, seed


def often(program, preloaded):
    """One core gives many texts of a race, so that the threads are held up indeed."""
    given, texts = written(SMALL, clients=3), set()
    is_wanted = lambda seed: seed < SMALL_RUNS or len(texts) < TEXTS
    for seed in itertools.takewhile(is_wanted, range(MOST_RUNS)):
        ran = ran_shaken(program, preloaded, given, 1, seed, one_core())
        texts.add(ran.out)
        yield f"a small race on one core, seed {seed}", Lawful(given).fault_of(ran)
    few = f"only {len(texts)} of {MOST_RUNS} runs" if len(texts) < TEXTS else None
    yield "different texts of a small race on one core", few
