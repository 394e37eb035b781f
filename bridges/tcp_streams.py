"""What both ends of TCP connections said, put together from segments that may be lost, repeated or out of their order."""
import collections

from captures import ACK, FIN, RST, SYN
from messages import HEADER, KEEPALIVE, MARKER

ALL = 1 << 32
# Segments of a capture stand at most so many seconds out of their order.
PATIENCE = 1.0
# What was received is acknowledged within this time (RFC 1122 section 4.2.3.2).
DELAY = 0.5

# What comes out of a connection. `kind` is MESSAGE, with its bytes; END; or BROKEN, with a reason and since when: nothing follows from that sender.
Piece = collections.namedtuple("Piece", "time connection sender kind value")
MESSAGE, END, BROKEN = "message", "end", "broken"
LONE_KEEPALIVE = MARKER + HEADER.to_bytes(2, "big") + bytes([KEEPALIVE])


def behind(number, other):
    """How far a sequence number lies behind another one; they wrap."""
    return (number - other + ALL // 2) % ALL - ALL // 2


class Direction:
    """What one end says: bytes in order, segments that wait for those in front of them, and where it ended."""

    def __init__(self):
        self.next, self.waiting, self.since, self.text = None, {}, None, bytearray()
        self.known = self.end = None
        self.is_broken = False

    def take(self, segment):
        """Adds the data as far as nothing is missing in front of it. What was there before is passed over."""
        if self.next is None:
            self.next = self.known = segment.number
        number = (segment.number + bool(segment.flags & SYN)) % ALL
        if segment.flags & SYN:
            self.next = self.known = number
        past = (number + len(segment.data) + segment.lacking) % ALL
        if segment.data and behind(number + len(segment.data), self.next) > 0:
            self.waiting[number] = max(self.waiting.get(number, b""), segment.data, key=len)
        if segment.flags & FIN:
            self.end = past
        self.knows(past, segment.time)
        self.join()
        if self.missing() == 0:
            self.since = None

    def knows(self, number, time):
        """It said at least all before this number; the end itself counts as one."""
        if self.end is not None and behind(number, self.end) > 0:
            number = self.end
        if self.next is not None and behind(number, self.known) > 0:
            self.known = number
            self.since = self.since or time

    def join(self):
        while (number := next((n for n in self.waiting if behind(n, self.next) <= 0), None)) is not None:
            data = self.waiting.pop(number)
            fresh = data[-behind(number, self.next):] if behind(number, self.next) < 0 else data
            self.text += fresh
            self.next = (self.next + len(fresh)) % ALL

    def is_over(self):
        return self.end is not None and behind(self.end, self.next) <= 0

    def missing(self):
        """How many bytes are missing in front of the first segment that waits, or else of what it is known to have said."""
        first = min((behind(number, self.next) for number in self.waiting), default=None)
        return behind(self.known, self.next) if first is None else first

    def skip(self):
        """Goes on behind what is missing."""
        self.next = (self.next + self.missing()) % ALL
        self.join()
        self.since = None

    def messages(self):
        """The whole messages in front, up to bytes that are none."""
        while len(self.text) >= HEADER:
            length = int.from_bytes(self.text[16:18], "big")
            if self.text[:16] != MARKER or length < HEADER:
                self.is_broken = True
                return
            if len(self.text) < length:
                return
            yield bytes(self.text[:length])
            del self.text[:length]


class Connection:
    """A TCP connection between two ends, each an address and a port."""

    def __init__(self, ends):
        self.ends, self.directions = ends, {end: Direction() for end in ends}
        self.has_ended = False

    def other(self, end):
        return self.ends[1] if end == self.ends[0] else self.ends[0]

    def take(self, segment):
        """The pieces that a segment brings."""
        sender = (segment.source, segment.source_port)
        other = self.other(sender)
        if segment.flags & ACK:
            self.directions[other].knows(segment.acknowledged, segment.time)
        self.directions[sender].take(segment)
        for end in (sender, other):
            yield from self.pieces(segment.time, end, PATIENCE)
        if segment.flags & RST:
            yield from self.ended(segment.time, sender)

    def pieces(self, time, sender, patience):
        """What can be said of a sender by now: its messages, that some of it is missing, its end."""
        direction = self.directions[sender]
        if direction.is_broken:
            return
        for message in direction.messages():
            yield Piece(time, self, sender, MESSAGE, message)
        if direction.is_broken:
            yield Piece(time, self, sender, BROKEN, ("bytes that are no message", time))
        elif direction.since is not None and time - direction.since > patience:
            yield from self.lacking(time, sender, patience)
        elif direction.is_over():
            yield from self.ended(time, sender)

    def lacking(self, time, sender, patience):
        """Nothing but a KEEPALIVE has its 19 bytes; any other gap breaks the stream."""
        direction = self.directions[sender]
        if direction.missing() == HEADER and not direction.text:
            direction.skip()
            yield Piece(time, self, sender, MESSAGE, LONE_KEEPALIVE)
            yield from self.pieces(time, sender, patience)
        else:
            direction.is_broken = True
            yield Piece(time, self, sender, BROKEN, (f"{direction.missing()} bytes that aren't in the capture", direction.since - DELAY))

    def ended(self, time, sender):
        if not self.has_ended:
            self.has_ended = True
            yield Piece(time, self, sender, END, None)

    def rest(self, time):
        """At the end of the capture nothing more comes."""
        for sender in self.ends:
            direction = self.directions[sender]
            if direction.next is not None and not direction.is_broken and direction.missing() > 0:
                yield from self.lacking(time, sender, -1.0)


def pieces_of(segments, port):
    """The pieces of all connections in which this port is an end, in the order of the capture."""
    connections, time = {}, 0.0
    for segment in segments:
        if port not in (segment.source_port, segment.target_port):
            continue
        time = segment.time
        ends = ((segment.source, segment.source_port), (segment.target, segment.target_port))
        begins = segment.flags & SYN and not segment.flags & ACK
        known = connections.get(frozenset(ends))
        if known is None or begins and known.has_ended:
            known = connections[frozenset(ends)] = Connection(ends)
        yield from known.take(segment)
    for connection in connections.values():
        yield from connection.rest(time)
