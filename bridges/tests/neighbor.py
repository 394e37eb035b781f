"""A BGP neighbor for the tests of live sessions, which does as it is told, wrong things too. It shares no code with what it tries."""
import ipaddress
import os
import select
import socket
import struct
import time

OPEN, UPDATE, NOTIFICATION, KEEPALIVE, ROUTE_REFRESH = 1, 2, 3, 4, 5
MARKER = b"\xff" * 16
# A machine that is busy may take long, and a test that fails may too.
PATIENCE = float(os.environ.get("PATIENCE", "60"))


def message(kind, body=b"", marker=MARKER, length=None):
    return marker + struct.pack("!HB", 19 + len(body) if length is None else length, kind) + body


def capability(code, value=b""):
    return bytes([code, len(value)]) + value


def family(afi):
    return capability(1, struct.pack("!HBB", afi, 0, 1))


def four_bytes(asn):
    return capability(65, struct.pack("!I", asn))


def add_path(afi, mode=1):
    return capability(69, struct.pack("!HBB", afi, 1, mode))


def orf(afi, mode=2):
    return capability(3, struct.pack("!HBBBBB", afi, 0, 1, 1, 64, mode))


REFRESH, EXTENDED, ENHANCED_REFRESH = capability(2), capability(6), capability(70)


def opening(asn, identifier, capabilities, hold=90, version=4, short=None, parameters=None, length=None):
    """An OPEN; `parameters` are others than the one of the capabilities, `length` says another than they have."""
    said = b"".join(capabilities)
    text = capability(2, said) if parameters is None else parameters
    head = struct.pack("!BHH", version, min(asn, 65535) if short is None else short, hold) + ipaddress.ip_address(identifier).packed
    return message(OPEN, head + bytes([len(text) if length is None else length]) + text)


def refresh(afi=1, subtype=0, safi=1, further=b""):
    return message(ROUTE_REFRESH, struct.pack("!HBB", afi, subtype, safi) + further)


class Closed(Exception):
    """The other side closed the connection."""


class Neighbor:
    """One neighbor: its address, its numbers, and the connection that it has now."""

    def __init__(self, address, asn, identifier, afi=1, further=(), hold=90):
        self.address, self.asn, self.identifier, self.afi, self.hold = address, asn, identifier, afi, hold
        self.capabilities = [family(afi), REFRESH, four_bytes(asn), *further]
        self.sock, self.rest, self.listener = None, bytearray(), None
        self.stream, self.opened = bytearray(), None

    def new_socket(self):
        sock = socket.socket(socket.AF_INET6 if ":" in self.address else socket.AF_INET)
        sock.setsockopt(socket.SOL_SOCKET, socket.SO_REUSEADDR, 1)
        return sock

    def connect(self, place, prepare=None, patience=PATIENCE):
        """Opens a connection from its own address, and forgets what an earlier one brought. `prepare` sets options of the socket."""
        sock = self.new_socket()
        try:
            sock.bind((self.address, 0))
            if prepare is not None:
                prepare(sock)
            sock.settimeout(patience)
            sock.connect(place)
        except OSError:
            sock.close()
            raise
        self.take(sock)

    def take(self, sock):
        sock.settimeout(PATIENCE)
        self.sock, self.rest, self.stream, self.opened = sock, bytearray(), bytearray(), None

    def listen(self, port=0):
        """Listens at its own address, and gives the port."""
        self.listener = self.new_socket()
        self.listener.bind((self.address, port))
        self.listener.listen()
        self.listener.settimeout(PATIENCE)
        return self.listener.getsockname()[1]

    def accept(self):
        self.take(self.listener.accept()[0])

    def open(self, **changes):
        """Its OPEN, with fields in place of its own."""
        fields = {"asn": self.asn, "identifier": self.identifier, "capabilities": self.capabilities, "hold": self.hold} | changes
        return opening(**fields)

    def send(self, *pieces):
        self.sock.sendall(b"".join(pieces))

    def next(self):
        """The next message. UPDATEs and ROUTE-REFRESHes are kept in `stream`."""
        while not self.has_message():
            try:
                piece = self.sock.recv(1 << 20)
            except ConnectionResetError as reset:
                raise Closed from reset
            if not piece:
                raise Closed
            self.rest += piece
        length = struct.unpack_from("!H", self.rest, 16)[0]
        whole = bytes(self.rest[:length])
        del self.rest[:length]
        if whole[18] in (UPDATE, ROUTE_REFRESH):
            self.stream += whole
        return whole

    def next_of(self, kind):
        """The next message of this kind. Those before it are read; a NOTIFICATION in place of it is none that was awaited."""
        while True:
            whole = self.next()
            if whole[18] == kind:
                return whole
            if whole[18] == NOTIFICATION:
                raise AssertionError(f"NOTIFICATION {whole[19:].hex()}")

    def notification(self):
        """Code, subcode and data of the NOTIFICATION that ends the connection."""
        while True:
            whole = self.next()
            if whole[18] == NOTIFICATION:
                return whole[19], whole[20], whole[21:]

    def establish(self, place=None, prepare=None):
        """A whole session, up to its KEEPALIVE: on a new connection to this place, or on the one that there is."""
        if place is not None:
            self.connect(place, prepare)
        self.send(self.open())
        self.opened = self.next_of(OPEN)
        self.send(message(KEEPALIVE))
        self.next_of(KEEPALIVE)

    def read_until(self, done, what):
        """Reads messages until `done()` holds."""
        end = time.monotonic() + PATIENCE
        while not done():
            if time.monotonic() > end:
                raise AssertionError(f"not within {PATIENCE} s: {what}")
            self.next()

    def has_message(self):
        return len(self.rest) >= 19 and len(self.rest) >= struct.unpack_from("!H", self.rest, 16)[0]

    def read_on(self, seconds=0.05):
        """Reads messages until none comes for so long."""
        while self.has_message() or select.select([self.sock], [], [], seconds)[0]:
            self.next()

    def close(self):
        if self.sock is not None:
            self.sock.close()
            self.sock = None
