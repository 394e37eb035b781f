"""The TCP segments of a capture: pcap and pcapng, of Ethernet, loopback, raw IP and Linux's cooked devices, IPv4 and IPv6."""
import collections
import ipaddress
import struct

FIN, SYN, RST, ACK = 1, 2, 4, 16
TCP = 6

# `end` is whether the sender ends: by FIN or by RST. `lacking` is how many bytes of the data the capture left out.
Segment = collections.namedtuple("Segment", "time source source_port target target_port number flags data lacking acknowledged")


class NoCapture(Exception):
    """The file isn't a capture that can be read here."""


def packets_of(file):
    """Each packet: its time in seconds, the link's type, its bytes, and its length on the wire."""
    magic = file.read(4)
    if magic == b"\x0a\x0d\x0d\x0a":
        return packets_of_pcapng(file)
    if magic in (b"\xd4\xc3\xb2\xa1", b"\x4d\x3c\xb2\xa1"):
        return packets_of_pcap(file, "<", 1e9 if magic[0] == 0x4D else 1e6)
    if magic in (b"\xa1\xb2\xc3\xd4", b"\xa1\xb2\x3c\x4d"):
        return packets_of_pcap(file, ">", 1e9 if magic[2] == 0x3C else 1e6)
    raise NoCapture("neither pcap nor pcapng")


def packets_of_pcap(file, order, fraction):
    head = file.read(20)
    if len(head) < 20:
        raise NoCapture("a pcap file without a whole header")
    link = struct.unpack(order + "I", head[16:])[0] & 0xFFFF
    while len(head := file.read(16)) == 16:
        seconds, part, kept, length = struct.unpack(order + "IIII", head)
        yield seconds + part / fraction, link, file.read(kept), length


class Interface:
    """What a block says of an interface: the link's type and the unit of its times."""

    def __init__(self, order, body):
        self.link = struct.unpack(order + "H", body[:2])[0]
        self.unit = 1e6
        at = 8
        while at + 4 <= len(body):
            code, size = struct.unpack(order + "HH", body[at:at + 4])
            if code == 9:
                power = body[at + 4]
                self.unit = 2.0 ** (power & 127) if power & 128 else 10.0 ** power
            at += 4 + (size + 3) // 4 * 4


def packets_of_pcapng(file):
    """Blocks: 1 is an interface, 6 a packet, 2 a packet of old, 3 one without a time."""
    file.seek(0)
    order, interfaces = "<", []
    while len(head := file.read(8)) == 8:
        if head[:4] == b"\x0a\x0d\x0d\x0a":
            order = "<" if file.read(4) == b"\x4d\x3c\x2b\x1a" else ">"
            file.seek(-4, 1)
            interfaces = []
        kind, size = struct.unpack(order + "II", head)
        body = file.read(size - 8)[:-4]
        if len(body) < size - 12:
            return
        if kind == 1:
            interfaces.append(Interface(order, body))
        elif kind == 6 and len(body) >= 20:
            number, high, low, kept, length = struct.unpack(order + "IIIII", body[:20])
            yield (high << 32 | low) / interfaces[number].unit, interfaces[number].link, body[20:20 + kept], length
        elif kind == 2 and len(body) >= 20:
            number, _, high, low, kept, length = struct.unpack(order + "HHIIII", body[:20])
            yield (high << 32 | low) / interfaces[number].unit, interfaces[number].link, body[20:20 + kept], length


def without_link(link, data):
    """The IP packet within a frame, or nothing."""
    if link == 1:
        at = 12
        while data[at:at + 2] in (b"\x81\x00", b"\x88\xa8"):
            at += 4
        return data[at + 2:] if data[at:at + 2] in (b"\x08\x00", b"\x86\xdd") else b""
    return data[{0: 4, 108: 4, 113: 16, 276: 20, 12: 0, 101: 0, 228: 0, 229: 0}.get(link, len(data)):]


def segment_of(time, packet, missing):
    """The TCP segment of an IP packet, of which so many bytes weren't kept, or None."""
    if len(packet) >= 20 and packet[0] >> 4 == 4:
        size, whole = (packet[0] & 15) * 4, int.from_bytes(packet[2:4], "big")
        if packet[9] != TCP or int.from_bytes(packet[6:8], "big") & 0x3FFF:
            return None
        source, target = packet[12:16], packet[16:20]
    elif len(packet) >= 40 and packet[0] >> 4 == 6:
        size, whole = 40, 40 + int.from_bytes(packet[4:6], "big")
        if packet[6] != TCP:
            return None
        source, target = packet[8:24], packet[24:40]
    else:
        return None
    # Of a segment that the sender's device cuts later the length is 0.
    body = packet[size:whole] if whole > size else packet[size:]
    if len(body) < 20:
        return None
    lacking = max(0, whole - len(packet)) if whole > size else missing
    source_port, target_port, number, acknowledged = struct.unpack("!HHII", body[:12])
    data = body[(body[12] >> 4) * 4:]
    return Segment(time, str(ipaddress.ip_address(source)), source_port, str(ipaddress.ip_address(target)), target_port, number, body[13], data,
                   lacking, acknowledged)


def segments_of(path):
    """The segments in the order of the file."""
    with open(path, "rb") as file:
        for time, link, data, length in packets_of(file):
            segment = segment_of(time, without_link(link, data), length - len(data))
            if segment is not None:
                yield segment
