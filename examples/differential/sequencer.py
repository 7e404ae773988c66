"""A small sequencer, as one would write it: a counter, and the replies of each commit proxy."""
from fdb_read_version import Issued, Refused, Status

LONGEST_STEP = 5_000_000
LAST_VERSION = (1 << 63) - 1


class Sequencer:
    def __init__(self, epoch_end, recovery, proxies):
        self.recovery, self.last, self.moment, self.drawn = recovery, epoch_end, 0, 0
        self.latest = [0] * proxies
        self.replies = [{} for _ in range(proxies)]

    def ask(self, proxy, num, at, processed=0):
        if proxy >= len(self.latest):
            raise Refused(Status.UNKNOWN_PROXY)
        if num > self.latest[proxy] + 1:
            raise Refused(Status.EARLY, self.latest[proxy] + 1)
        if self.is_retry(proxy, num):
            return self.kept(proxy, num)
        version = self.next_version(at)
        if version > LAST_VERSION:
            raise Refused(Status.EXHAUSTED)
        issued = Issued(self.drawn, proxy, num, processed, self.last, version, at, True)
        self.last, self.moment, self.drawn = version, at, self.drawn + 1
        self.latest[proxy] = num
        self.forget(proxy, processed)
        self.replies[proxy][num] = issued
        return issued

    def is_retry(self, proxy, num):
        return num <= self.latest[proxy]

    def kept(self, proxy, num):
        issued = self.replies[proxy].get(num)
        if issued is None:
            raise Refused(Status.FORGOTTEN)
        return Issued(*[*vars(issued).values()][:-1], fresh=False)

    def next_version(self, at):
        if self.drawn == 0:
            return self.recovery
        return self.last + max(1, min(LONGEST_STEP, at - self.moment))

    def forget(self, proxy, processed):
        kept = self.replies[proxy]
        self.replies[proxy] = {num: it for num, it in kept.items() if num > processed}
