"""Whole messages out of what TCP brings, and the faults of their headers (RFC 4271 sections 4.1 and 6.1)."""
import struct

from live_faults import NOTIFICATION, Fault
from messages import HEADER, MARKER, ROUTE_REFRESH, UPDATE

OPEN, KEEPALIVE = 1, 4
LONGEST, LONGEST_EXTENDED = 4096, 65535
SHORTEST = {OPEN: 29, UPDATE: 23, NOTIFICATION: 21, KEEPALIVE: 19, ROUTE_REFRESH: 23}


def message(kind, body=b""):
    return MARKER + struct.pack("!HB", HEADER + len(body), kind) + body


def length_of(stream, at, longest):
    """The length that a header says, of a message that may have `longest` bytes; OPEN and KEEPALIVE never have more than 4,096
    (RFC 8654 section 4)."""
    length, kind = struct.unpack_from("!HB", stream, at + 16)
    if stream[at:at + 16] != MARKER:
        raise Fault(1, 1)
    if kind not in SHORTEST:
        raise Fault(1, 3, bytes([kind]), f"type {kind}")
    most = SHORTEST[KEEPALIVE] if kind == KEEPALIVE else LONGEST if kind == OPEN else longest
    if not SHORTEST[kind] <= length <= most:
        raise Fault(1, 2, struct.pack("!H", length), f"length {length} of type {kind}")
    return length


class Frames:
    """The messages of a connection. `longest` grows where both sides have extended messages (RFC 8654)."""

    def __init__(self):
        self.rest, self.longest = bytearray(), LONGEST

    def take(self, piece):
        """The messages that are whole with this piece. A header's fault is raised behind those before it."""
        self.rest += piece
        at = 0
        try:
            while len(self.rest) - at >= HEADER:
                length = length_of(self.rest, at, self.longest)
                if len(self.rest) - at < length:
                    break
                at += length
                yield bytes(self.rest[at - length:at])
        finally:
            del self.rest[:at]


def whole_messages(stream):
    """How many bytes the whole messages at the front of a well-formed stream have, and how many messages they are."""
    at, count, last = 0, 0, len(stream) - HEADER
    while at <= last:
        length = stream[at + 16] << 8 | stream[at + 17]
        if at + length > len(stream):
            break
        at += length
        count += 1
    return at, count
