"""The messages of a stream of bytes, as BGP frames them (RFC 4271 section 4.1)."""

MARKER = b"\xff" * 16
HEADER = 19
OPEN = 1
UPDATE = 2
NOTIFICATION = 3
KEEPALIVE = 4
ROUTE_REFRESH = 5
NAMES = {1: "OPEN", 2: "UPDATE", 3: "NOTIFICATION", 4: "KEEPALIVE", 5: "ROUTE-REFRESH"}


def messages_of(stream):
    """The whole messages at the front, and how many bytes are left."""
    found, at = [], 0
    while at + HEADER <= len(stream):
        length = int.from_bytes(stream[at + 16:at + 18], "big")
        if stream[at:at + 16] != MARKER or length < HEADER or at + length > len(stream):
            break
        found.append(stream[at:at + length])
        at += length
    return found, len(stream) - at


def kind_of(message):
    return message[18]
