"""When a run is told to `flush`: between the lines of an operator who is quiet, the run formats nothing of its own accord (docs/RUNNING.md)."""
import asyncio

# An operator who said nothing for so many seconds is quiet; behind the first line that waits it takes no longer than LATEST.
QUIET, LATEST, PACE = 0.005, 0.1, 0.001
# Where fewer messages came out of each session, no queue was full (`queue_limit` is at least 20), and nothing waits for want of room.
MANY = 20


class Flushing:
    """`say` says the line. With `coalesce` above 1 each line may wait for others, and without it what found a queue full."""

    def __init__(self, coalesce, say):
        self.coalesce, self.say = coalesce, say
        self.loop, self.timer = asyncio.get_running_loop(), None
        self.last_line = self.first_line = self.last_flush = 0.0
        self.counts = {}

    def lines_came(self):
        self.last_line = self.loop.time()
        if self.coalesce > 1:
            self.wish()

    def messages_came(self, session, count):
        self.counts[session] = self.counts.get(session, 0) + count
        if self.counts[session] >= MANY:
            self.wish()

    def wish(self):
        if self.timer is None:
            self.first_line = self.loop.time()
            self.set_timer()

    def set_timer(self):
        quiet = min(self.last_line + QUIET, self.first_line + LATEST)
        self.timer = self.loop.call_at(max(quiet, self.last_flush + PACE), self.see)

    def see(self):
        """Says it, unless lines came meanwhile."""
        now = self.loop.time()
        if now < min(self.last_line + QUIET, self.first_line + LATEST):
            return self.set_timer()
        self.timer, self.last_flush = None, now
        self.counts.clear()
        self.say()

    def stop(self):
        if self.timer is not None:
            self.timer.cancel()
