#!/usr/bin/env python3
"""Writes a small MRT file (RFC 6396): a table of two peers with four prefixes, and three updates. By hand, for the tests."""
import ipaddress
import struct
import sys

OLD, NEW = "198.51.100.11", "198.51.100.12"


def record(kind, subtype, body):
    return struct.pack(">IHHI", 1131867000, kind, subtype, len(body)) + body


def address(text):
    return ipaddress.ip_address(text).packed


def prefix(text):
    network = ipaddress.ip_network(text)
    return bytes([network.prefixlen]) + network.network_address.packed[:(network.prefixlen + 7) // 8]


def attribute(flags, kind, value):
    return bytes([flags, kind, len(value)]) + value


def attributes(segments, next_hop, origin=0, further=b""):
    path = b"".join(bytes([kind, len(numbers)]) + struct.pack(f">{len(numbers)}I", *numbers) for kind, numbers in segments)
    return attribute(64, 1, bytes([origin])) + attribute(64, 2, path) + attribute(64, 3, address(next_hop)) + further


def peers():
    """PEER_INDEX_TABLE."""
    entries = b"".join(b"\x02" + address(a) + address(a) + struct.pack(">I", n) for a, n in ((OLD, 64500), (NEW, 4200000001)))
    return record(13, 1, address("192.0.2.1") + struct.pack(">H", 0) + struct.pack(">H", 2) + entries)


def routes(number, text, entries):
    """RIB_IPV4_UNICAST."""
    body = struct.pack(">I", number) + prefix(text) + struct.pack(">H", len(entries))
    return record(13, 2, body + b"".join(struct.pack(">HIH", peer, 1131867000, len(a)) + a for peer, a in entries))


def update(number, sender, withdrawn, said, announced):
    """BGP4MP_MESSAGE_AS4."""
    gone = b"".join(prefix(text) for text in withdrawn)
    body = struct.pack(">H", len(gone)) + gone + struct.pack(">H", len(said)) + said + b"".join(prefix(text) for text in announced)
    message = b"\xff" * 16 + struct.pack(">HB", 19 + len(body), 2) + body
    return record(16, 4, struct.pack(">IIHH", number, 64999, 0, 1) + address(sender) + address("198.51.100.1") + message)


sequence, a_set, confederation = 2, 1, 3
med = attribute(128, 4, struct.pack(">I", 50))
local_pref = attribute(64, 5, struct.pack(">I", 200))
atomic = attribute(64, 6, b"")
aggregator = attribute(192, 7, struct.pack(">I", 64500) + address("192.0.2.9"))
communities = attribute(192, 8, struct.pack(">HHI", 64500, 7, 0xFFFFFF01))
sys.stdout.buffer.write(
    peers()
    + routes(0, "10.0.0.0/8", [
        (0, attributes([(sequence, [64500, 3356]), (a_set, [174, 6939])], OLD, further=med + communities)),
        (1, attributes([(sequence, [4200000001])], NEW, origin=2, further=local_pref + atomic + aggregator))])
    + routes(1, "11.0.0.0/8", [(0, attributes([(confederation, [65001]), (sequence, [64500])], OLD))])
    + routes(2, "12.0.0.0/8", [(1, attributes([(sequence, [4200000001, 1])], NEW))])
    + update(4200000001, NEW, ["10.0.0.0/8", "12.0.0.0/8"], b"", [])
    + update(64500, OLD, [], attributes([(sequence, [64500, 2])], OLD, origin=1), ["12.0.0.0/8", "13.1.0.0/16"])
    + update(64511, "198.51.100.13", [], attributes([(sequence, [64511])], "198.51.100.13"), ["14.0.0.0/8"]))
