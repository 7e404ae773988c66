"""A small queue of a GRV proxy, as one would write it: a list for each priority, two budgets."""
from dataclasses import replace

from fdb_read_version import Limit, Outcome, Priority, Refused, Request, Status, TurnedAway

RATE_WINDOW, MOST_RATE, MOST_TAG = 2_000_000, 100_000, 16
MOST_COUNT, MOST_STARTED, MOST_BURST, IDLE_BURST = 100_000, 10_000, 100_000, 10
SYSTEM, DEFAULT, BATCH = Priority


class Grv:
    def __init__(self, config):
        self.config, self.normal, self.batch = config, 0, 0
        self.waiting = {SYSTEM: [], DEFAULT: [], BATCH: []}
        self.throttles = {}

    def row(self):
        return self.waiting[SYSTEM] + self.waiting[DEFAULT] + self.waiting[BATCH]

    def outcome(self, started=(), out=None):
        waits = tuple(len(it) for it in self.waiting.values())
        return Outcome(self.normal, self.batch, waits, tuple(started), out)

    def offer(self, count, payload, priority):
        cause = refusal_under(self.config, count, priority)
        if cause is not None:
            raise Refused(cause)
        out = None
        if len(self.row()) == self.config.room:
            below = [it for it in (BATCH, DEFAULT) if it > priority and self.waiting[it]]
            if not below:
                raise Refused(Status.FULL)
            out = self.waiting[below[0]].pop(0)
        self.waiting[priority].append(Request(count, payload, priority))
        return self.outcome(out=out)

    def set_rates(self, normal, batch):
        if not (1 <= normal <= MOST_RATE and batch <= MOST_RATE):
            raise Refused(Status.BAD_CONFIG)
        self.config = replace(self.config, normal=normal, batch=batch)
        stay, gone = [], []
        for request in self.waiting[BATCH]:
            cause = refusal_under(self.config, request.count, BATCH)
            if cause is None:
                stay.append(request)
            else:
                gone.append(TurnedAway(cause, request))
        self.waiting[BATCH] = stay
        return gone

    def may_start(self, priority, count):
        """Whether a request may start with which so many transactions have started."""
        if priority == SYSTEM:
            return True
        if priority == DEFAULT:
            return fits(self.config.normal, self.normal, count)
        return self.batch_may_start(count)

    def batch_may_start(self, count):
        by_batch = fits(self.config.batch, self.batch, count)
        return by_batch and fits(self.config.normal, self.normal, count)

    def window(self, elapsed):
        if not 1 <= elapsed <= 10_000_000:
            raise Refused(Status.BAD_CONFIG)
        started, count = [], 0
        for request in self.row()[:MOST_STARTED]:
            count += request.count
            if not self.may_start(request.priority, count):
                break
            started.append(request)
        for request in started:
            self.waiting[request.priority].pop(0)
        self.pay(elapsed, started)
        return self.outcome(started)

    def pay(self, elapsed, started):
        every = sum(it.count for it in started)
        unbatched = sum(it.count for it in started if it.priority != BATCH)
        idle = not self.waiting[SYSTEM] and not self.waiting[DEFAULT]
        self.normal = paid(self.normal, elapsed, self.config.normal, unbatched, idle)
        self.batch = paid(self.batch, elapsed, self.config.batch, every, not self.row())

    def set_throttle(self, priority, tag, rate, expires):
        if len(tag) > MOST_TAG:
            raise Refused(Status.TAG_TOO_LONG)
        self.throttles[priority, tag] = Limit(rate, expires)

    def throttle(self, priority, tag, at):
        limit = self.throttles.get((priority, tag))
        return limit if limit and at < limit.expires else None

    def forget_throttles(self, at):
        kept = {key: limit for key, limit in self.throttles.items() if at < limit.expires}
        self.throttles = kept

    def pop(self):
        row = self.row()
        if not row:
            return self.outcome()
        return self.outcome(out=self.waiting[row[0].priority].pop(0))


def refusal_under(config, count, priority):
    """Why a configuration lets no such request in, if it does not."""
    most = min(MOST_COUNT, config.normal + IDLE_BURST) if priority == BATCH else MOST_COUNT
    if not 1 <= count <= most:
        return Status.BAD_COUNT
    return Status.BATCH_THROTTLED if priority == BATCH and config.batch == 0 else None


def fits(limit, budget, count):
    return count * RATE_WINDOW <= min(limit * RATE_WINDOW + budget, MOST_BURST * RATE_WINDOW)


def paid(budget, elapsed, limit, started, idle):
    budget = max(0, budget + elapsed * limit - elapsed * started)
    return min(budget, (IDLE_BURST if idle else MOST_BURST) * RATE_WINDOW)
