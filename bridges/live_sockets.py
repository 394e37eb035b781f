"""The sockets of sessions: where one listens and calls from, keys for TCP MD5 (RFC 2385), and TTL security (RFC 5082)."""
import socket
import struct

PORT = 179
# Numbers of Linux that the module socket doesn't name.
TCP_MD5SIG, IP_MINTTL, IPV6_MINHOPCOUNT = 14, 21, 73
LONGEST_KEY = 80
MOST_HOPS = 255


def place_of(text):
    """ADDRESS, ADDRESS:PORT or [ADDRESS]:PORT as an address and a port."""
    if text.startswith("["):
        address, _, port = text[1:].partition("]")
        port = port.removeprefix(":")
    elif text.count(":") == 1:
        address, _, port = text.partition(":")
    else:
        address, port = text, ""
    return address, int(port) if port else PORT


def keys_of(path):
    """Keys by peer: a line has a peer's name, a space, and its key."""
    with open(path, encoding="utf-8") as file:
        lines = [line.rstrip("\n").partition(" ") for line in file if line.strip() and not line.startswith("#")]
    keys = {name: key.encode() for name, _, key in lines}
    for name, key in keys.items():
        if not 0 < len(key) <= LONGEST_KEY:
            raise ValueError(f"the key of {name} has {len(key)} bytes, and 1 to {LONGEST_KEY} are allowed")
    return keys


def family_of(address):
    return socket.AF_INET6 if address.version == 6 else socket.AF_INET


def sign(sock, address, key):
    """Segments to and from this address carry the key's signature, and others are dropped."""
    if address.version == 6:
        where = struct.pack("=HHI16sI", socket.AF_INET6, 0, 0, address.packed, 0)
    else:
        where = struct.pack("=HH4s", socket.AF_INET, 0, address.packed)
    sock.setsockopt(socket.IPPROTO_TCP, TCP_MD5SIG, struct.pack("=128sBBHI80s", where, 0, 0, len(key), 0, key))


def secure_hops(sock, family):
    """Only a neighbor on the same link can have sent what still has 255 hops to go."""
    if family == socket.AF_INET6:
        sock.setsockopt(socket.IPPROTO_IPV6, socket.IPV6_UNICAST_HOPS, MOST_HOPS)
        sock.setsockopt(socket.IPPROTO_IPV6, IPV6_MINHOPCOUNT, MOST_HOPS)
    else:
        sock.setsockopt(socket.IPPROTO_IP, socket.IP_TTL, MOST_HOPS)
        sock.setsockopt(socket.IPPROTO_IP, IP_MINTTL, MOST_HOPS)


def listening(address, port, signed, hops):
    """A socket that listens. `signed` has the address and key of each neighbor that signs."""
    family = family_of(address)
    sock = socket.socket(family, socket.SOCK_STREAM)
    try:
        sock.setsockopt(socket.SOL_SOCKET, socket.SO_REUSEADDR, 1)
        if family == socket.AF_INET6:
            sock.setsockopt(socket.IPPROTO_IPV6, socket.IPV6_V6ONLY, 1)
        for neighbor, key in signed:
            if neighbor.version == address.version:
                sign(sock, neighbor, key)
        if hops:
            secure_hops(sock, family)
        sock.bind((str(address), port))
        sock.listen(128)
    except OSError:
        sock.close()
        raise
    sock.setblocking(False)
    return sock


def calling(source, address, key, hops):
    """A socket that will call a neighbor from this address."""
    family = family_of(address)
    sock = socket.socket(family, socket.SOCK_STREAM)
    try:
        sock.setsockopt(socket.SOL_SOCKET, socket.SO_REUSEADDR, 1)
        if key is not None:
            sign(sock, address, key)
        if hops:
            secure_hops(sock, family)
        sock.bind((str(source), 0))
    except OSError:
        sock.close()
        raise
    sock.setblocking(False)
    return sock
