"""OPEN: what it says of the local side, and what is wrong with a neighbor's (RFC 4271 sections 4.2 and 6.2, RFC 5492, RFC 6793)."""
import dataclasses
import ipaddress
import struct

from live_config import IPV4
from live_faults import Fault
from live_frames import OPEN, message

VERSION, HOLD_TIME, AS_TRANS, UNICAST = 4, 90, 23456, 1
CAPABILITIES, EXTENDED_LENGTH = 2, 255
MULTIPROTOCOL, REFRESH, ORF, EXTENDED, FOUR_BYTES, ADD_PATH, ENHANCED_REFRESH = 1, 2, 3, 6, 65, 69, 70
NAMES = {MULTIPROTOCOL: "the address family", ORF: "outbound route filtering", EXTENDED: "extended messages",
         FOUR_BYTES: "four-byte AS numbers", ADD_PATH: "ADD-PATH", ENHANCED_REFRESH: "enhanced route refresh"}
RECEIVE, SEND = 1, 2
PREFIX_FILTER = 64


def capabilities_of(speaker, peer):
    """Code and value of each capability that is offered to this peer."""
    family = struct.pack("!HBB", peer.afi, 0, UNICAST)
    offered = [(MULTIPROTOCOL, family), (REFRESH, b""), (FOUR_BYTES, struct.pack("!I", speaker.asn))]
    if peer.orf:
        offered.append((ORF, family + bytes([1, PREFIX_FILTER, RECEIVE])))
    if peer.extended:
        offered.append((EXTENDED, b""))
    if peer.add_path:
        offered.append((ADD_PATH, struct.pack("!HBB", peer.afi, UNICAST, SEND)))
    if peer.enhanced_refresh:
        offered.append((ENHANCED_REFRESH, b""))
    return offered


def spelled(code, value):
    return bytes([code, len(value)]) + value


def open_message(speaker, peer):
    """The OPEN of the local side."""
    capabilities = b"".join(spelled(*capability) for capability in capabilities_of(speaker, peer))
    short = speaker.asn if speaker.asn < 65536 else AS_TRANS
    parameters = spelled(CAPABILITIES, capabilities)
    return message(OPEN, struct.pack("!BHH", VERSION, short, HOLD_TIME) + speaker.identifier.packed + bytes([len(parameters)]) + parameters)


@dataclasses.dataclass
class Open:
    """A neighbor's OPEN, as it was read."""
    asn: int
    hold_time: int
    identifier: ipaddress.IPv4Address
    capabilities: list


def parts(text, wide=False):
    """Type, length and value, again and again (`wide`: lengths of two bytes, RFC 9072)."""
    at, head = 0, 3 if wide else 2
    while at < len(text):
        if len(text) - at < head:
            raise Fault(2, 0, why="a parameter is cut short")
        length = int.from_bytes(text[at + 1:at + head], "big")
        if len(text) - at - head < length:
            raise Fault(2, 0, why="a parameter is cut short")
        yield text[at], text[at + head:at + head + length]
        at += head + length


def parameters_of(body):
    """The optional parameters behind the ten fixed bytes."""
    length, rest = body[9], body[10:]
    wide = length == EXTENDED_LENGTH and rest[:1] == bytes([EXTENDED_LENGTH])
    if wide:
        if len(rest) < 3:
            raise Fault(2, 0, why="the parameters are cut short")
        length, rest = int.from_bytes(rest[1:3], "big"), rest[3:]
    if length != len(rest):
        raise Fault(2, 0, why=f"{len(rest)} bytes of parameters, where {length} are said")
    return list(parts(rest, wide))


def read_open(text):
    """The whole OPEN of a neighbor, header and all, or the fault of its form."""
    body = text[19:]
    version, short, hold_time = struct.unpack_from("!BHH", body)
    if version != VERSION:
        raise Fault(2, 1, struct.pack("!H", VERSION), f"version {version}")
    capabilities = []
    for kind, value in parameters_of(body):
        if kind != CAPABILITIES:
            raise Fault(2, 4, why=f"parameter {kind}")
        capabilities += parts(value)
    long = [value for code, value in capabilities if code == FOUR_BYTES]
    if long and len(long[0]) != 4:
        raise Fault(2, 0, why="a four-byte AS number of another length")
    asn = int.from_bytes(long[0], "big") if long else short
    return Open(asn, hold_time, ipaddress.IPv4Address(body[5:9]), capabilities)


def families_of(value):
    """The families of ADD-PATH that the neighbor takes (RFC 7911 section 4)."""
    return {(afi, safi) for afi, safi, mode in struct.iter_unpack("!HBB", value[:len(value) // 4 * 4]) if mode & RECEIVE}


def filters_of(value):
    """The families of which the neighbor sends filters by prefixes (RFC 5291 section 5)."""
    found, at = set(), 0
    while len(value) - at >= 5:
        afi, _, safi, count = struct.unpack_from("!HBBB", value, at)
        pairs = value[at + 5:at + 5 + 2 * count]
        if any(kind == PREFIX_FILTER and mode & SEND for kind, mode in zip(pairs[::2], pairs[1::2])):
            found.add((afi, safi))
        at += 5 + 2 * count
    return found


def lacking(opened, peer):
    """The codes of what the configuration says of the peer and its OPEN doesn't. One that names no family at all has IPv4 unicast."""
    values = {}
    for code, value in opened.capabilities:
        values.setdefault(code, []).append(value)
    family = (peer.afi, UNICAST)
    named = {(int.from_bytes(value[:2], "big"), value[3]) for value in values.get(MULTIPROTOCOL, []) if len(value) == 4}
    has = {
        MULTIPROTOCOL: family in named or (not named and peer.afi == IPV4),
        FOUR_BYTES: FOUR_BYTES in values,
        ORF: not peer.orf or any(family in filters_of(value) for value in values.get(ORF, [])),
        EXTENDED: not peer.extended or EXTENDED in values,
        ADD_PATH: not peer.add_path or any(family in families_of(value) for value in values.get(ADD_PATH, [])),
        ENHANCED_REFRESH: not peer.enhanced_refresh or ENHANCED_REFRESH in values}
    return [code for code, there in has.items() if not there]


def check_open(opened, speaker, peer):
    """Whether it is the OPEN of this peer (RFC 4271 section 6.2)."""
    if opened.asn != peer.asn:
        raise Fault(2, 2, why=f"AS {opened.asn}, and the configuration has {peer.asn}")
    if opened.hold_time in (1, 2):
        raise Fault(2, 6, why=f"hold time {opened.hold_time}")
    if int(opened.identifier) == 0 or opened.identifier != peer.identifier:
        raise Fault(2, 3, why=f"identifier {opened.identifier}, and the configuration has {peer.identifier}")
    without = lacking(opened, peer)
    if without:
        offered = dict(capabilities_of(speaker, peer))
        data = b"".join(spelled(code, offered[code]) for code in without)
        raise Fault(2, 7, data, "without " + ", ".join(NAMES[code] for code in without))
