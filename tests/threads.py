"""That several threads really run: tests/refuse.c tells of each start of a thread."""
import tempfile

from answers import do
from harness import written
from memory import built, run_refused


def threads(program):
    """A run has a thread for each proxy, and in a round one for each acting client but one."""
    reads = lambda clients: [do("grv", who) for who in range(clients) for _ in range(2)]
    rounds = {0: [], 1: [reads(1)], 3: [reads(3)], 133: [reads(64), reads(5), reads(64)]}
    with tempfile.TemporaryDirectory(prefix="refuse-") as folder:
        preloaded = built(folder)
        for proxies in range(1, 17):
            for of_clients, commands in rounds.items():
                given, wanted = written(commands, clients=64), proxies + of_clients - len(commands)
                ran, started = run_refused(
                    [program, "--proxies", str(proxies)], preloaded, 0, False, given
                )
                fault = (
                    f"{len(started)} threads in place of {wanted}"
                    if started != b"s" * wanted
                    else None
                )
                name = f"{proxies} proxies, and {of_clients} clients in {len(commands)} rounds"
                yield name, f"status {ran.status}" if ran.status else fault
