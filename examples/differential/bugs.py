"""Three bugs, of the kind that one finds in production."""
from grv import Grv, fits
from sequencer import Sequencer


class LosesAReply(Sequencer):
    """It forgets one reply too many: a retry of that request is never answered."""

    def forget(self, proxy, processed):
        super().forget(proxy, processed + 1)


class DrawsTwice(Sequencer):
    """It takes the retry of the newest request for a new one, and draws a second version."""

    def is_retry(self, proxy, num):
        return num < self.latest[proxy]


class LetsBatchIn(Grv):
    """It holds batch requests to the normal rate alone, above the batch limit."""

    def batch_may_start(self, count):
        return fits(self.config.normal, self.normal, count)
