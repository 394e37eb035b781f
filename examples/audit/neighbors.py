"""Neighbors of a speaker over TCP, with their OPENs, KEEPALIVEs and UPDATEs (RFC 4271)."""
import ipaddress
import socket
import struct
import threading
import time

MARKER = b"\xff" * 16
OPEN, UPDATE, NOTIFICATION, KEEPALIVE, ROUTE_REFRESH = 1, 2, 3, 4, 5
HOLD = 240


def message(kind, body=b""):
    return MARKER + struct.pack("!HB", 19 + len(body), kind) + body


def capability(code, value=b""):
    return bytes([code, len(value)]) + value


def open_message(asn, router_id, add_path, enhanced_refresh):
    """An OPEN for IPv4, with AS numbers of four bytes and route refresh."""
    codes = capability(1, b"\0\1\0\1") + capability(2) + capability(65, struct.pack("!I", asn))
    codes += capability(69, b"\0\1\1\1") if add_path else b""
    codes += capability(70) if enhanced_refresh else b""
    options = bytes([2, len(codes)]) + codes
    return message(OPEN, struct.pack("!BHH4sB", 4, asn, HOLD, ipaddress.IPv4Address(router_id).packed, len(options)) + options)


def attribute(flags, kind, value):
    return struct.pack("!BBH", flags | 16, kind, len(value)) + value if len(value) > 255 else bytes([flags, kind, len(value)]) + value


def routes(prefixes):
    return b"".join(bytes([p.prefixlen]) + p.network_address.packed[:(p.prefixlen + 7) // 8] for p in map(ipaddress.ip_network, prefixes))


def address(text):
    return ipaddress.IPv4Address(text).packed


def announcement(prefixes, next_hop, path, origin=0, med=None, local_pref=None, communities=(), aggregator=None, originator=None, clusters=()):
    """An UPDATE that announces prefixes; of the path a set is an AS_SET."""
    segments = b"".join(bytes([1 if isinstance(part, set) else 2, len(part)]) + b"".join(struct.pack("!I", n) for n in part) for part in path)
    texts = [attribute(0x40, 1, bytes([origin])), attribute(0x40, 2, segments), attribute(0x40, 3, address(next_hop))]
    texts += [attribute(0x80, 4, struct.pack("!I", med))] if med is not None else []
    texts += [attribute(0x40, 5, struct.pack("!I", local_pref))] if local_pref is not None else []
    texts += [attribute(0x40, 6, b""), attribute(0xC0, 7, struct.pack("!I", aggregator[0]) + address(aggregator[1]))] if aggregator else []
    texts += [attribute(0xC0, 8, b"".join(struct.pack("!HH", *each) for each in communities))] if communities else []
    texts += [attribute(0x80, 9, address(originator))] if originator else []
    texts += [attribute(0x80, 10, b"".join(map(address, clusters)))] if clusters else []
    attributes = b"".join(texts)
    return message(UPDATE, b"\0\0" + struct.pack("!H", len(attributes)) + attributes + routes(prefixes))


def withdrawal(prefixes):
    text = routes(prefixes)
    return message(UPDATE, struct.pack("!H", len(text)) + text + b"\0\0")


REFRESH = message(ROUTE_REFRESH, b"\0\1\0\1")


class Neighbor:
    """A neighbor that comes up, says what it is told to say, and reads all that it hears."""

    def __init__(self, own, asn, router_id, add_path=False, enhanced_refresh=False):
        self.own, self.asn = own, asn
        self.open_message = open_message(asn, router_id, add_path, enhanced_refresh)
        self.socket = None

    def up(self, speaker, seconds=60):
        """Comes up; tries again until the speaker answers."""
        end = time.time() + seconds
        while time.time() < end:
            try:
                self.socket = socket.create_connection((speaker, 179), 5, (self.own, 0))
                if self.established():
                    threading.Thread(target=self.read, args=(self.socket,), daemon=True).start()
                    return
            except OSError:
                pass
            time.sleep(0.2)
        raise SystemExit(f"{self.own} doesn't come up with {speaker}")

    def established(self):
        self.socket.setsockopt(socket.IPPROTO_TCP, socket.TCP_NODELAY, 1)
        self.socket.settimeout(10)
        self.socket.sendall(self.open_message)
        kinds = []
        while KEEPALIVE not in kinds:
            head = self.exactly(19)
            self.exactly(int.from_bytes(head[16:18], "big") - 19)
            kinds.append(head[18])
            if head[18] == NOTIFICATION:
                return False
            if head[18] == OPEN:
                self.socket.sendall(message(KEEPALIVE))
        return True

    def exactly(self, size):
        data = b""
        while len(data) < size:
            more = self.socket.recv(size - len(data))
            if not more:
                raise OSError("the speaker closed the connection")
            data += more
        return data

    def read(self, connection):
        """Reads and forgets: what is heard stands in the capture."""
        connection.settimeout(None)
        try:
            while connection.recv(262144):
                pass
        except OSError:
            pass

    def say(self, data):
        self.socket.sendall(data)

    def down(self):
        """A Cease (RFC 4486, administrative shutdown), and the end of the connection."""
        self.socket.sendall(message(NOTIFICATION, b"\6\2"))
        self.socket.shutdown(socket.SHUT_WR)
        time.sleep(0.2)
        self.socket.close()
