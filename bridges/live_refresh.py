"""What a neighbor asks by ROUTE-REFRESH, as lines of the file of events (RFC 2918, RFC 5291, RFC 5292, RFC 7313)."""
import struct

from live_config import IPV4
from live_faults import Fault
from live_frames import message
from live_open import PREFIX_FILTER, UNICAST
from messages import HEADER, ROUTE_REFRESH

PLAIN_LENGTH = HEADER + 4
REQUEST, BEGIN, END = 0, 1, 2
DEFER = 2
LONGEST_LINE = 4096


def check(whole, peer):
    """A mark of a refresh has no more than the family (RFC 7313 section 5)."""
    if peer.enhanced_refresh and whole[21] in (BEGIN, END) and len(whole) != PLAIN_LENGTH:
        raise Fault(7, 1, whole, "a mark of another length")


def is_for(whole, peer):
    """Whether it asks for the peer's routes. Marks, and requests for other families, are passed over (RFC 2918 section 4)."""
    afi, subtype, safi = struct.unpack_from("!HBB", whole, HEADER)
    return (afi, safi) == (peer.afi, UNICAST) and subtype == REQUEST


def is_plain(whole):
    """Whether it asks for everything again, and brings no filter."""
    return len(whole) == PLAIN_LENGTH


def lines_of(whole, peer):
    """The lines that say it. A filter that is too long for one line is said in parts, of which the last alone may hold at once."""
    if is_plain(whole):
        return [f"receive {peer.name} {whole.hex()}" if peer.afi == IPV4 else f"refresh {peer.name}"]
    return [f"orf {peer.name} {part.hex()}" for part in filter_parts(whole, peer)]


def filter_parts(whole, peer):
    most = (LONGEST_LINE - len(f"orf {peer.name} ")) // 2
    entries = entries_of(whole[PLAIN_LENGTH + 1:], peer.orf == "frr")
    if len(whole) <= most or entries is None:
        return [whole]
    room = most - PLAIN_LENGTH - 4
    groups = [[]]
    for entry in entries:
        if sum(map(len, groups[-1])) + len(entry) > room:
            groups.append([])
        groups[-1].append(entry)
    whens = [DEFER] * (len(groups) - 1) + [whole[PLAIN_LENGTH]]
    return [filter_message(whole, when, b"".join(group)) for when, group in zip(whens, groups)]


def filter_message(whole, when, entries):
    """A part of the filter: the family and the reserved byte of the whole, and one block of entries."""
    block = struct.pack("!BH", PREFIX_FILTER, len(entries)) + entries
    return message(ROUTE_REFRESH, whole[HEADER:PLAIN_LENGTH] + bytes([when]) + block)


def entries_of(blocks, as_frr):
    """The entries of all blocks of prefix filters, or None where they can't be told apart."""
    found, at = [], 0
    while at < len(blocks):
        if len(blocks) - at < 3:
            return None
        kind, length = struct.unpack_from("!BH", blocks, at)
        block = blocks[at + 3:at + 3 + length]
        if len(block) < length:
            return None
        if kind == PREFIX_FILTER:
            entries = cut(block, as_frr)
            if entries is None:
                return None
            found += entries
        at += 3 + length
    return found


def cut(block, as_frr):
    """The entries of one block. One that removes all is a single byte, and ends it: action 2, or 3 as FRR spells it."""
    found, at, remove_all = [], 0, 3 if as_frr else 2
    while at < len(block):
        if block[at] >> 6 == remove_all:
            return found + [block[at:at + 1]]
        if len(block) - at < 8:
            return None
        length = 8 + (block[at + 7] + 7) // 8
        if len(block) - at < length:
            return None
        found.append(block[at:at + length])
        at += length
    return found
