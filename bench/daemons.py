#!/usr/bin/env python3
"""daemons.py DAEMON EVENTS GROUPS: what another speaker takes for the sessions and routes of a file of events.

DAEMON is `frr` or `bird`, as it is installed. It listens on loopback, in AS 65001. Of EVENTS the `up` lines are sessions with
external peers, which only read, and the `paths` lines what one more peer tells it, lines with equal attributes that follow one
another in one UPDATE. Peers are of so many GROUPS as in bench/fabric.sh: each group but the first has a map of its own, which sets
MULTI_EXIT_DISC. All run until each peer was told every prefix. Prints the processor's time of the daemon in seconds, from its
start on, and its peak memory in KiB.
"""

import os
import re
import selectors
import socket
import struct
import subprocess
import sys
import tempfile
import threading
import time

ADDRESS = "127.0.0.1"
LOCAL_AS = 65001
FEEDER_ADDRESS = "127.0.3.1"
FEEDER_AS = 64999
OPEN, UPDATE, NOTIFICATION, KEEPALIVE = 1, 2, 3, 4
HEADER = struct.Struct("!16sHB")
MOST_OF_UPDATE = 4096
PATIENCE = 120  # seconds in which nothing comes
PATH = re.compile(r"paths (\S+)/24 id=1 from=feeder nh=(\S+) origin=igp as=64999 comm=(\d+):(\d+)\n?")


def peer_as(number):
    return 65100 + number


def peer_address(number):
    return f"127.0.2.{number}"


def message(kind, body=b""):
    return HEADER.pack(b"\xff" * 16, HEADER.size + len(body), kind) + body


def open_message(own_as, address):
    capabilities = bytes([1, 4, 0, 1, 0, 1]) + struct.pack("!BBI", 65, 4, own_as)
    return message(OPEN, struct.pack("!BHH4sBBB", 4, own_as, 0, socket.inet_aton(address), len(capabilities) + 2, 2, len(capabilities)) + capabilities)


def attributes(next_hop, high, low):
    """ORIGIN, AS_PATH, NEXT_HOP and COMMUNITIES, as they stand in an UPDATE."""
    return (
        bytes([0x40, 1, 1, 0])
        + struct.pack("!BBBBBI", 0x40, 2, 6, 2, 1, FEEDER_AS)
        + struct.pack("!BBB4s", 0x40, 3, 4, socket.inet_aton(next_hop))
        + struct.pack("!BBBHH", 0xC0, 8, 4, high, low)
    )


def update(own, prefixes):
    return message(UPDATE, struct.pack("!HH", 0, len(own)) + own + prefixes)


def updates(lines):
    """The UPDATEs of `paths` lines, those in a row with equal attributes together."""
    told, shared, prefixes = [], None, b""
    for line in lines:
        prefix, next_hop, high, low = PATH.fullmatch(line).groups()
        own = attributes(next_hop, int(high), int(low))
        if own != shared or HEADER.size + 4 + len(own) + len(prefixes) + 4 > MOST_OF_UPDATE:
            if prefixes:
                told.append(update(shared, prefixes))
            shared, prefixes = own, b""
        prefixes += b"\x18" + socket.inet_aton(prefix)[:3]
    if prefixes:
        told.append(update(shared, prefixes))
    return b"".join(told)


class Frr:
    program = "/usr/lib/frr/bgpd"

    def words(self, folder, port, peers, groups):
        lines = ["frr defaults traditional", f"log file {folder}/log errors"]
        for number in range(1, groups):
            lines += [f"route-map m{number} permit 10", f" set metric {number}"]
        lines += [f"router bgp {LOCAL_AS}", " bgp router-id 10.255.0.1", " no bgp ebgp-requires-policy"]
        neighbors = [(peer_address(number), peer_as(number)) for number in peers] + [(FEEDER_ADDRESS, FEEDER_AS)]
        for address, own_as in neighbors:
            lines += [f" neighbor {address} remote-as {own_as}", f" neighbor {address} passive", f" neighbor {address} ebgp-multihop 255"]
        lines += [" address-family ipv4 unicast"]
        lines += [f"  neighbor {peer_address(number)} route-map m{number % groups} out" for number in peers if number % groups]
        write(f"{folder}/conf", lines)
        # Without zebra every next hop counts as reached, and nothing is installed.
        files = ["-f", f"{folder}/conf", "-i", f"{folder}/pid", "--vty_socket", folder]
        return [self.program, "-S", "-Z", "-n", "-l", ADDRESS, "-p", str(port), "-P", "0"] + files


class Bird:
    program = "/usr/sbin/bird"

    def words(self, folder, port, peers, groups):
        lines = [f'log "{folder}/log" {{ warning, error, fatal, bug }};', "router id 10.255.0.1;", "protocol device { }"]
        for number in range(1, groups):
            lines += [f"filter m{number} {{ bgp_med = {number}; accept; }}"]
        for number in peers:
            goes_out = f"filter m{number % groups}" if number % groups else "all"
            lines += self.neighbor(f"p{number}", port, peer_address(number), peer_as(number), f"import none; export {goes_out};")
        lines += self.neighbor("feeder", port, FEEDER_ADDRESS, FEEDER_AS, "import all; export none;")
        write(f"{folder}/conf", lines)
        return [self.program, "-f", "-c", f"{folder}/conf", "-s", f"{folder}/control", "-P", f"{folder}/pid"]

    def neighbor(self, name, port, address, own_as, ways):
        return [
            f"protocol bgp {name} {{ local {ADDRESS} port {port} as {LOCAL_AS}; neighbor {address} as {own_as};",
            f"  passive on; multihop 255; ipv4 {{ {ways} }}; }}",
        ]


def write(name, lines):
    with open(name, "w", encoding="ascii") as file:
        file.write("\n".join(lines) + "\n")


class Session:
    """A session over TCP, which counts the routes that it is told."""

    def __init__(self, port, own_as, address):
        self.socket = socket.create_connection((ADDRESS, port), PATIENCE, (address, 0))
        self.socket.setsockopt(socket.IPPROTO_TCP, socket.TCP_NODELAY, 1)
        self.kept = b""
        self.routes = 0
        self.socket.sendall(open_message(own_as, address))
        kinds = []
        while KEEPALIVE not in kinds:
            kinds += self.receive()
            if OPEN in kinds and kinds[-1] == OPEN:
                self.socket.sendall(message(KEEPALIVE))
        self.socket.sendall(message(KEEPALIVE))

    def receive(self):
        """Reads what is there, and gives the kinds of the messages."""
        read = self.socket.recv(1 << 18)
        if not read:
            raise SystemExit("the daemon ends a session")
        self.kept += read
        kinds, place = [], 0
        while len(self.kept) >= place + HEADER.size:
            _, length, kind = HEADER.unpack_from(self.kept, place)
            if len(self.kept) < place + length:
                break
            if kind == UPDATE:
                self.count(place, length)
            elif kind == NOTIFICATION:
                raise SystemExit(f"the daemon says {self.kept[place + HEADER.size : place + length].hex()}")
            kinds.append(kind)
            place += length
        self.kept = self.kept[place:]
        return kinds

    def count(self, place, length):
        """Counts the announced prefixes of an UPDATE, each of which is a /24."""
        (withdrawn,) = struct.unpack_from("!H", self.kept, place + HEADER.size)
        (own,) = struct.unpack_from("!H", self.kept, place + HEADER.size + 2 + withdrawn)
        self.routes += (length - HEADER.size - 4 - withdrawn - own) // 4


class Spent:
    """The processor's time and the peak memory of a process."""

    def __init__(self, pid):
        self.pid = pid

    def seconds(self):
        with open(f"/proc/{self.pid}/stat", encoding="ascii") as file:
            fields = file.read().rpartition(")")[2].split()
        return (int(fields[11]) + int(fields[12])) / os.sysconf("SC_CLK_TCK")

    def peak(self):
        with open(f"/proc/{self.pid}/status", encoding="ascii") as file:
            return int(re.search(r"VmHWM:\s+(\d+)", file.read())[1])

    def settle(self):
        """Waits until it has used no processor for half a second."""
        before = None
        while before != (before := self.seconds()):
            time.sleep(0.5)


def free_port():
    with socket.create_server((ADDRESS, 0)) as server:
        return server.getsockname()[1]


def wait_for(port):
    for _ in range(100):
        try:
            socket.create_connection((ADDRESS, port), 1).close()
            return
        except ConnectionRefusedError:
            time.sleep(0.1)
    raise SystemExit("the daemon doesn't listen")


def receive_all(sessions, routes):
    """Reads until each session was told so many routes."""
    with selectors.DefaultSelector() as selector:
        for session in sessions:
            selector.register(session.socket, selectors.EVENT_READ, session)
        behind = set(sessions)
        while behind:
            ready = selector.select(PATIENCE)
            if not ready:
                raise SystemExit(f"nothing comes, and {len(behind)} peers were told {min(session.routes for session in behind)} of {routes}")
            for key, _ in ready:
                key.data.receive()
                if key.data.routes >= routes:
                    behind.discard(key.data)


def play(lines, port, spent):
    """Begins the sessions and tells the routes, in the order of the lines, and waits until all peers were told all."""
    ups = [int(line[len("up p") :]) for line in lines if line.startswith("up ")]
    paths = [line for line in lines if line.startswith("paths ")]
    told = updates(paths)
    feeder = Session(port, FEEDER_AS, FEEDER_ADDRESS)

    def begin():
        return [Session(port, peer_as(number), peer_address(number)) for number in ups]

    if lines[0].startswith("paths "):
        feeder.socket.sendall(told)
        spent.settle()
        receive_all(begin(), len(paths))
    else:
        sessions = begin()
        spent.settle()
        telling = threading.Thread(target=feeder.socket.sendall, args=(told,))
        telling.start()
        receive_all(sessions, len(paths))
        telling.join()


def main():
    kind, events, groups = sys.argv[1], sys.argv[2], int(sys.argv[3])
    daemon = {"frr": Frr, "bird": Bird}[kind]()
    with open(events, encoding="ascii") as file:
        lines = file.readlines()
    peers = sorted(int(line[len("up p") :]) for line in lines if line.startswith("up "))
    port = free_port()
    with tempfile.TemporaryDirectory() as folder:
        with open(f"{folder}/said", "wb") as said:
            process = subprocess.Popen(daemon.words(folder, port, peers, groups), stdout=said, stderr=said)
        spent = Spent(process.pid)
        try:
            wait_for(port)
            play(lines, port, spent)
            print(f"{spent.seconds():.2f} {spent.peak()}")
        finally:
            process.terminate()
            process.wait()


if __name__ == "__main__":
    main()
