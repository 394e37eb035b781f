"""One TCP connection with a neighbor, from its OPEN to its end (RFC 4271 section 8.2.2, without the states that have no connection)."""
import asyncio
import collections
import contextlib
import enum

from live_faults import NOTIFICATION, Fault, told_by
from live_frames import KEEPALIVE, LONGEST_EXTENDED, OPEN, Frames, message
from live_open import EXTENDED, HOLD_TIME, check_open, open_message, read_open
from messages import ROUTE_REFRESH, kind_of

# How long an OPEN may take (section 8.2.2 suggests four minutes), and how long a NOTIFICATION has until all is cut.
OPEN_TIME, LINGER = 240, 1
# How long a neighbor may read nothing (RFC 9687), and how much waits for it before its session's pipe is left full.
SEND_HOLD_TIME, MOST_UNSENT = 480, 262144
ALIVE = message(KEEPALIVE)


class State(enum.Enum):
    OPEN_SENT = 1
    OPEN_CONFIRM = 2
    ESTABLISHED = 3
    OVER = 4


class Connection(asyncio.Protocol):
    """Speaks with one neighbor, who is told when an OPEN is right, when the session is up, what was asked, whether more may be
    sent, and when all is over."""

    def __init__(self, neighbor, outgoing):
        self.neighbor, self.outgoing = neighbor, outgoing
        self.loop = asyncio.get_running_loop()
        self.state, self.transport = State.OPEN_SENT, None
        self.frames, self.counts = Frames(), collections.Counter()
        self.hold_time, self.heard = OPEN_TIME, self.loop.time()
        self.timers = {}

    # ---- what TCP brings

    def connection_made(self, transport):
        self.transport = transport
        if self.neighbor.stopped:
            return transport.abort()
        transport.set_write_buffer_limits(MOST_UNSENT)
        transport.write(open_message(self.neighbor.speaker, self.neighbor.peer))
        self.watch()

    def data_received(self, data):
        self.heard = self.loop.time()
        try:
            for whole in self.frames.take(data):
                if self.state is State.OVER:
                    return
                self.take(whole)
        except Fault as fault:
            self.end(fault)

    def eof_received(self):
        self.finish("the neighbor closed the connection")

    def connection_lost(self, error):
        self.finish(str(error or "the connection was closed"))
        self.stop_timers()
        self.neighbor.gone(self)

    def pause_writing(self):
        self.after("send", max(SEND_HOLD_TIME, 2 * self.hold_time), self.end, Fault(8, 0))
        self.neighbor.hold_back(self)

    def resume_writing(self):
        if self.state is not State.OVER:
            self.timers.pop("send").cancel()
            self.neighbor.go_on(self)

    # ---- messages

    def take(self, whole):
        """What a message means in this state."""
        kind = kind_of(whole)
        self.counts[kind] += 1
        if kind == NOTIFICATION:
            self.finish(f"the neighbor says {told_by(whole)}")
        elif self.state is State.OPEN_SENT:
            self.take_open(kind, whole)
        elif self.state is State.OPEN_CONFIRM:
            self.confirm(kind)
        elif kind == OPEN:
            raise Fault(5, 3, bytes([kind]), "an OPEN")
        elif kind == ROUTE_REFRESH:
            self.neighbor.asked(whole)

    def take_open(self, kind, whole):
        if kind != OPEN:
            raise Fault(5, 1, bytes([kind]), f"message type {kind}")
        opened = read_open(whole)
        check_open(opened, self.neighbor.speaker, self.neighbor.peer)
        self.neighbor.resolve_collision(self)
        self.state, self.hold_time = State.OPEN_CONFIRM, min(HOLD_TIME, opened.hold_time)
        if self.neighbor.peer.extended:
            self.frames.longest = LONGEST_EXTENDED
        self.watch()
        self.stay_alive()

    def confirm(self, kind):
        if kind != KEEPALIVE:
            raise Fault(5, 2, bytes([kind]), f"message type {kind}")
        self.state = State.ESTABLISHED
        self.neighbor.established(self)

    def send(self, whole_messages):
        """Hands messages of the session on."""
        self.transport.write(whole_messages)

    # ---- timers

    def after(self, name, seconds, what, *words):
        """Sets the timer of this name, in place of one that runs."""
        if name in self.timers:
            self.timers.pop(name).cancel()
        self.timers[name] = self.loop.call_later(seconds, what, *words)

    def stop_timers(self):
        while self.timers:
            self.timers.popitem()[1].cancel()

    def watch(self):
        """Ends the session where nothing was heard for the hold time; one of 0 has no end (RFC 4271 section 4.2)."""
        left = self.heard + self.hold_time - self.loop.time()
        if self.hold_time == 0:
            self.timers.pop("hold").cancel()
        elif left > 0:
            self.after("hold", left, self.watch)
        else:
            self.end(Fault(4, 0))

    def stay_alive(self):
        """Sends a KEEPALIVE, and another one each third of the hold time (section 4.4). Behind what isn't read there are none."""
        if "send" not in self.timers:
            self.transport.write(ALIVE)
        if self.hold_time > 0:
            self.after("keepalive", self.hold_time / 3, self.stay_alive)

    # ---- the end

    def end(self, fault):
        """Ends the connection for this fault, which the neighbor is told."""
        if self.state is not State.OVER and self.transport is not None:
            self.transport.write(fault.message())
            self.finish(str(fault))

    def finish(self, why):
        """Ends it without a word. What was written before still goes out, and what comes is read on for a while and dropped, since
        a connection that is closed over unread bytes is reset, and a NOTIFICATION would be lost."""
        if self.state is State.OVER or self.transport is None:
            return
        was, self.state = self.state, State.OVER
        self.stop_timers()
        with contextlib.suppress(OSError):
            self.transport.write_eof()
        self.after("linger", LINGER, self.transport.abort)
        self.neighbor.ended(self, was, why)
