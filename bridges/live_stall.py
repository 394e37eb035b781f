"""What is said where a neighbor stands still, all is quiet, and others may wait for it (docs/GROUPS.md, "Slow neighbors")."""
import asyncio
import re

# So long nothing was said and no message came.
STILL = 0.1
POLICY = re.compile(rb"^ *policy +([a-z0-9_-]+) +([a-z0-9_-]+) *\r?$", re.M)


class Stall:
    """A run leaves a neighbor behind only after `slow_after` events with a full queue, and none may come. So many are said here that
    change nothing: each gives a peer the policy that it has. `sessions` are those of the run, and `say` says lines."""

    def __init__(self, speaker, peers, sessions, say):
        self.slow_after, self.known, self.sessions, self.say = speaker.slow_after, speaker.policies, sessions, say
        self.policies = {peer.name: peer.policy for peer in peers}
        self.loop, self.timer, self.last = asyncio.get_running_loop(), None, 0.0

    def lines_came(self, lines):
        """Takes note of the policies that these lines give."""
        for peer, policy in POLICY.findall(lines):
            if policy.decode() in self.known:
                self.policies[peer.decode()] = policy.decode()
        self.moved()

    def moved(self):
        """Something was said, or messages came."""
        self.last = self.loop.time()
        if self.timer is None:
            self.timer = self.loop.call_at(self.last + STILL, self.see)

    def see(self):
        self.timer = None
        if self.loop.time() < self.last + STILL:
            self.timer = self.loop.call_at(self.last + STILL, self.see)
            return
        full = next((session for session in self.sessions if session.is_left_full()), None)
        if full is not None:
            self.say([f"policy {full.peer} {self.policies[full.peer]}"] * self.slow_after)

    def stop(self):
        if self.timer is not None:
            self.timer.cancel()
