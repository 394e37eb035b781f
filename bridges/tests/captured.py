#!/usr/bin/env python3
"""Small captures, written packet by packet, and what audit_of_pcap.py has to make of them; and which of some paths is the best. Says what differs."""
import contextlib
import io
import ipaddress
import os
import struct
import sys
import tempfile

HERE = os.path.dirname(os.path.abspath(__file__))
sys.path.insert(0, os.path.dirname(HERE))
import audit_of_pcap
from best_paths import STEPS, Neighbor, Path, best
from speakers import OwnRoute
from updates import Route

MARKER = b"\xff" * 16
FIN, SYN, RST, PUSH, ACK = 1, 2, 4, 8, 16
SPEAKER, ONE, TWO = "203.0.113.1", "203.0.113.21", "203.0.113.22"
SIX, SIX_ONE = "2001:db8::1", "2001:db8::21"
CONFIG = """[local]
as = 65001
router_id = "10.0.0.1"
"""
PEER = """
[[peer]]
name = "%s"
as = %d
router_id = "%s"
address = "%s"
local_address = "%s"
subnet = "%s"
"""


def peer(name, asn, address, more=""):
    is_six = ":" in address
    return PEER % (name, asn, "10.0.0." + address.rsplit(".", 1)[-1].rsplit(":", 1)[-1], address, SIX if is_six else SPEAKER,
                   "2001:db8::/64" if is_six else "203.0.113.0/24") + ('family = "ipv6"\n' if is_six else "") + more


def message(kind, body=b""):
    return MARKER + struct.pack("!HB", 19 + len(body), kind) + body


def opens(asn, router_id, *codes, has_as4=True):
    """An OPEN with these capabilities, each a code and its value."""
    said = [(1, b"\0\1\0\1"), (2, b"")] + ([(65, struct.pack("!I", asn))] if has_as4 else []) + list(codes)
    text = b"".join(bytes([code, len(value)]) + value for code, value in said)
    return message(1, struct.pack("!BHH4sB", 4, asn, 180, ipaddress.ip_address(router_id).packed, len(text) + 2) + bytes([2, len(text)]) + text)


def attribute(flags, kind, value):
    return bytes([flags, kind, len(value)]) + value


def update(attributes, prefixes=b"", withdrawn=b""):
    return message(2, struct.pack("!H", len(withdrawn)) + withdrawn + struct.pack("!H", len(attributes)) + attributes + prefixes)


def route(path, next_hop, *more, width=4):
    numbers = b"".join(n.to_bytes(width, "big") for n in path)
    said = attribute(0x40, 1, b"\0") + attribute(0x40, 2, bytes([2, len(path)]) + numbers if path else b"")
    return said + attribute(0x40, 3, ipaddress.ip_address(next_hop).packed) + b"".join(more)


TEN, ELEVEN = bytes([8, 10]), bytes([8, 11])
KEEPALIVE, CEASE = message(4), message(3, b"\6\2")


class Capture:
    """Packets, a tenth of a second apart."""

    def __init__(self):
        self.packets, self.ports = [], 50000

    def packet(self, source, target, ports, number, acknowledged, flags, data=b""):
        tcp = struct.pack("!HHIIBBHHH", *ports, number % 2**32, acknowledged % 2**32, 0x50, flags, 65535, 0, 0) + data
        one, other = ipaddress.ip_address(source).packed, ipaddress.ip_address(target).packed
        if len(one) == 4:
            head = struct.pack("!BBHHHBBH", 0x45, 0, 20 + len(tcp), 0, 0, 64, 6, 0) + one + other
        else:
            head = struct.pack("!IHBB", 0x60000000, len(tcp), 6, 64) + one + other
        self.packets.append(head + tcp)

    def connection(self, neighbor, speaker=SPEAKER, begins=True):
        self.ports += 1
        return Connection(self, neighbor, speaker, self.ports, begins)

    def write(self, path, link=101, before=b""):
        with open(path, "wb") as file:
            file.write(struct.pack("<IHHiIII", 0xA1B2C3D4, 2, 4, 0, 0, 65535, link))
            for place, packet in enumerate(self.packets):
                packet = before + packet
                file.write(struct.pack("<IIII", 1000 + place // 10, place % 10 * 100000, len(packet), len(packet)) + packet)


class Connection:
    """A connection that the neighbor opens."""

    def __init__(self, capture, neighbor, speaker, port, begins):
        self.capture, self.names, self.ports = capture, {"neighbor": neighbor, "speaker": speaker}, {"neighbor": port, "speaker": 179}
        self.numbers = {"neighbor": 2**32 - 40, "speaker": 7000}
        if begins:
            self.packet("neighbor", SYN)
            self.packet("speaker", SYN | ACK)

    def packet(self, who, flags, data=b""):
        other = "speaker" if who == "neighbor" else "neighbor"
        self.capture.packet(self.names[who], self.names[other], (self.ports[who], self.ports[other]), self.numbers[who], self.numbers[other], flags, data)
        self.numbers[who] += len(data) + bool(flags & (SYN | FIN))

    def say(self, who, *messages):
        for said in messages:
            self.packet(who, PUSH | ACK, said)

    def up(self, mine, theirs):
        self.say("neighbor", theirs)
        self.say("speaker", mine, KEEPALIVE)
        self.say("neighbor", KEEPALIVE)
        return self

    def end(self, who, flags):
        self.packet(who, flags | ACK)


MINE = opens(65001, "10.0.0.1")
FROM_ONE = "paths 10.0.0.0/8 id=1 from=one nh=203.0.113.21 origin=igp as=64500"
RIGHT = ["up two", FROM_ONE, "withdraw 10.0.0.0/8"]


def two_neighbors(capture):
    """`one` tells 10.0.0.0/8 and takes it back; `two` is told."""
    two = capture.connection(TWO).up(MINE, opens(65102, "10.0.0.22"))
    one = capture.connection(ONE).up(MINE, opens(64500, "10.0.0.21"))
    one.say("neighbor", update(route([64500], ONE), TEN))
    two.say("speaker", update(route([65001, 64500], ONE), TEN))
    return one, two


def plain(capture):
    one, two = two_neighbors(capture)
    one.say("neighbor", update(b"", withdrawn=TEN))
    two.say("speaker", update(b"", withdrawn=TEN))


def ends_by(how):
    def write(capture):
        one, two = two_neighbors(capture)
        how(capture, one, two)
    return write


def a_new_session(capture, one, two):
    """The neighbor begins anew on another connection, and the old one isn't closed."""
    capture.connection(ONE).up(MINE, opens(64500, "10.0.0.21"))


def an_open_in_vain(capture, one, two):
    """The speaker refuses another connection of a neighbor that is up (RFC 4271 section 6.8)."""
    other = capture.connection(ONE)
    other.say("neighbor", opens(64500, "10.0.0.21"))
    other.say("speaker", message(3, b"\6\7"))
    one.say("neighbor", update(b"", withdrawn=TEN))


def two_bytes(capture):
    """A neighbor with AS numbers of two bytes tells a path with AS4_PATH; another one isn't judged."""
    one = capture.connection(ONE).up(MINE, opens(64500, "10.0.0.21", has_as4=False))
    capture.connection(TWO).up(MINE, opens(65102, "10.0.0.22", has_as4=False))
    one.say("neighbor", update(route([64500, 23456], ONE, attribute(0xC0, 17, b"\2\1" + (4200000001).to_bytes(4, "big")), width=2), TEN))


def requests(capture):
    """A request, a filter of FRR's that removes all, and marks of the neighbor's own refresh."""
    one, two = two_neighbors(capture)
    two.say("neighbor", message(5, b"\0\1\0\1"), message(5, b"\0\1\0\1\1\x40\0\1\xc0"))
    one.say("neighbor", update(route([64500], ONE), ELEVEN), message(5, b"\0\1\1\1"), update(route([64500], ONE), ELEVEN), message(5, b"\0\1\2\1"))


def choices(capture):
    """The path of `two` is longer; then its LOCAL_PREF isn't heeded, since it is external; the speaker's own AS is a loop."""
    one, two = two_neighbors(capture)
    two.say("neighbor", update(route([65102, 9], TWO), TEN), update(route([65102, 9], TWO, attribute(0x40, 5, b"\0\0\1\0")), TEN))
    one.say("neighbor", update(route([64500, 65001], ONE), TEN))


def identifiers(capture):
    """`one` tells two paths with identifiers; `two` is told both, with those of the speaker."""
    both = (69, b"\0\1\1\3")
    two = capture.connection(TWO).up(opens(65001, "10.0.0.1", both), opens(65102, "10.0.0.22", both))
    one = capture.connection(ONE).up(opens(65001, "10.0.0.1", both), opens(64500, "10.0.0.21", both))
    one.say("neighbor", update(route([64500], ONE), b"\0\0\0\7" + TEN), update(route([64500, 9], ONE), b"\0\0\0\x08" + TEN))
    two.say("speaker", update(route([65001, 64500, 9], ONE), b"\0\0\0\x15" + TEN), update(route([65001, 64500], ONE), b"\0\0\0\x16" + TEN))


def six(capture):
    """IPv6."""
    said = (1, b"\0\2\0\1")
    one = capture.connection(SIX_ONE, SIX).up(opens(65001, "10.0.0.1", said), opens(64500, "10.0.0.21", said))
    reach = b"\0\2\1\x10" + ipaddress.ip_address(SIX_ONE).packed + b"\0" + b"\x20\x20\x01\x0d\xb8"
    one.say("neighbor", update(attribute(0x40, 1, b"\0") + attribute(0x40, 2, b"\2\1\0\0\xfb\xf4") + attribute(0x80, 14, reach)))
    one.say("neighbor", update(attribute(0x80, 15, b"\0\2\1" + b"\x20\x20\x01\x0d\xb8")))


def in_the_midst(capture):
    """The capture has no OPEN of `one`."""
    one = capture.connection(ONE, begins=False)
    one.say("neighbor", KEEPALIVE, update(route([64500], ONE), TEN))


def without_a_keepalive(capture):
    plain(capture)
    at = next(place for place, packet in enumerate(capture.packets) if packet[40:] == update(b"", withdrawn=TEN))
    one = capture.packets[at]
    number = int.from_bytes(one[24:28], "big")
    # 19 bytes more stood in front
    capture.packets[at:] = [one[:24] + ((number + 19) % 2**32).to_bytes(4, "big") + one[28:]] + capture.packets[at + 1:]


BOTH = CONFIG + peer("one", 64500, ONE) + peer("two", 65102, TWO)
LONGER = "from=two nh=203.0.113.22 origin=igp as=65102,9"
CASES = [
    ("two neighbors", plain, BOTH, RIGHT, [], []),
    ("within a second", plain, BOTH, RIGHT + ["down two"], ["--within", ".5"], []),
    ("with an address of its own", plain, BOTH.replace(f'local_address = "{SPEAKER}"', 'local_address = "192.0.2.9"'), RIGHT, ["--local", SPEAKER], []),
    ("a NOTIFICATION", ends_by(lambda capture, one, two: one.say("neighbor", CEASE)), BOTH, RIGHT, [], []),
    ("a NOTIFICATION of the speaker", ends_by(lambda capture, one, two: one.say("speaker", CEASE)), BOTH, RIGHT, [], []),
    ("a FIN", ends_by(lambda capture, one, two: one.end("neighbor", FIN)), BOTH, RIGHT, [], []),
    ("a RST", ends_by(lambda capture, one, two: one.end("speaker", RST)), BOTH, RIGHT, [], []),
    ("the next session", ends_by(a_new_session), BOTH, RIGHT, [], []),
    ("an OPEN in vain", ends_by(an_open_in_vain), BOTH, RIGHT, [], []),
    ("the other session ends", ends_by(lambda capture, one, two: two.end("neighbor", FIN)), BOTH, ["up two", FROM_ONE, "down two"], [], []),
    ("AS numbers of two bytes", two_bytes, BOTH, [FROM_ONE.replace("as=64500", "as=64500,4200000001")], [],
     ["two: a session with AS numbers of two bytes, which isn't judged"]),
    ("requests", requests, BOTH, ["up two", FROM_ONE, "receive two " + message(5, b"\0\1\0\1").hex(),
                                  "orf two " + message(5, b"\0\1\0\1\1\x40\0\1\x80").hex(), FROM_ONE.replace("10.0", "11.0", 1)] +
     [FROM_ONE.replace("10.0", "11.0", 1), "withdraw 10.0.0.0/8"], [], ["two: a filter that removes all by c0, which is written as 80"]),
    ("choices", choices, BOTH, [FROM_ONE, FROM_ONE + " | id=2 " + LONGER, FROM_ONE + " | id=2 " + LONGER, "paths 10.0.0.0/8 id=2 " + LONGER], [], []),
    ("choices, and senders judged", choices, BOTH, ["up two", "up one", FROM_ONE, FROM_ONE + " | id=2 " + LONGER, FROM_ONE + " | id=2 " + LONGER,
                                                    "paths 10.0.0.0/8 id=2 " + LONGER], ["--senders"], []),
    ("identifiers", identifiers, BOTH + "add_path = true\n", ["up two", FROM_ONE.replace("id=1", "id=22"), FROM_ONE.replace("id=1", "id=22") +
     " | id=21 from=one nh=203.0.113.21 origin=igp as=64500,9"], [], ["one: CONFIG says add_path = False, and its OPENs come to True"]),
    ("IPv6", six, CONFIG + peer("one", 64500, SIX_ONE),
     ["paths 2001:db8::/32 id=1 from=one nh=2001:db8::21 origin=igp as=64500", "withdraw 2001:db8::/32"], [], []),
    ("the midst of a session", in_the_midst, BOTH, [], [], ["one: a session whose begin isn't in the capture"]),
    ("a KEEPALIVE that isn't in the capture", without_a_keepalive, BOTH, RIGHT, [], []),
    ("events that are given", plain, BOTH, ["up two", "up one", "paths 10.0.0.0/8 id=1 from=local nh=0.0.0.0 origin=igp as=-"],
     ["--speaker", "events", "--also", "+1.25 paths 10.0.0.0/8 id=1 from=local nh=0.0.0.0 origin=igp as=-"], []),
    ("a route of the speaker's own", plain, BOTH,
     ["up two", "paths 10.0.0.0/8 id=1 from=local nh=0.0.0.0 origin=igp as=-",
      "paths 10.0.0.0/8 id=1 from=local nh=0.0.0.0 origin=igp as=- | id=2 from=one nh=203.0.113.21 origin=igp as=64500",
      "paths 10.0.0.0/8 id=1 from=local nh=0.0.0.0 origin=igp as=-"],
     ["--also", "+1.05 paths 10.0.0.0/8 id=1 from=local nh=0.0.0.0 origin=igp as=-"], []),
]


# ---- the decision process

def path(name, asn, router_id, address, numbers, **said):
    """A path of a neighbor of AS 65001, with these numbers as its AS path; `said` are further attributes."""
    route = Route()
    route.segments, route.origin, route.next_hop = [(False, numbers)] if numbers else [], 0, address
    for field, value in said.items():
        assert hasattr(route, field)
        setattr(route, field, value)
    return Path(Neighbor({"name": name, "as": asn, "router_id": router_id, "address": address}, 65001), route)


def decisions():
    """Paths, the place of the one that was best before, and the place of the best by FRR and by BIRD."""
    outside = ("one", 64500, "10.0.0.21", "203.0.113.21"), ("two", 64510, "10.0.0.22", "203.0.113.22")
    inside = ("core", 65001, "10.0.0.31", "203.0.113.31"), ("branch", 65001, "10.0.0.30", "203.0.113.32")
    one, two = outside
    core, branch = inside
    own = Path(None, OwnRoute("origin=igp as=-"))
    return [
        ("one's own", [path(*core, [], local_pref=900), own], 0, 1, 1),
        ("LOCAL_PREF before the AS path", [path(*one, [64500]), path(*core, [1, 2, 3], local_pref=101)], 0, 1, 1),
        ("LOCAL_PREF is 100 where it isn't told", [path(*one, [64500]), path(*core, [], local_pref=99)], 1, 0, 0),
        ("the shorter AS path before ORIGIN", [path(*one, [64500, 9]), path(*two, [64510], origin=2)], 0, 1, 1),
        ("a set counts once", [path(*one, [64500, 9, 9]), path(*core, [], segments=[(False, [8]), (True, [1, 2, 3])])], 0, 1, 1),
        ("ORIGIN before MED", [path(*one, [64500], origin=1), path(*core, [64500], med=9)], 0, 1, 1),
        ("MED of one AS before external ones", [path(*one, [64500], med=9), path(*core, [64500], med=8)], 0, 1, 1),
        ("no MED is 0", [path(*one, [64500], med=1), path(*core, [64500])], 0, 1, 1),
        ("MED of another AS", [path(*one, [64500], med=9), path(*core, [64510], med=8)], 1, 0, 0),
        ("MED without an AS", [path(*core, [], med=9), path(*branch, [], med=10)], 1, 0, 0),
        ("a path that its AS rules out rules none out", [path(*one, [9], med=9), path(*core, [9], med=8), path(*two, [8], med=7)], 0, 2, 2),
        ("external ones", [path(*core, [64500]), path(*two, [64510])], 0, 1, 1),
        ("the older external one", [path(*one, [64500]), path(*two, [64510])], 1, 1, 0),
        ("the older internal one", [path(*core, []), path(*branch, [])], 0, 1, 1),
        ("the lower router id", [path(*core, []), path(*branch, [])], 1, 1, 1),
        ("ORIGINATOR_ID in its place", [path(*core, [], originator="10.0.0.2"), path(*branch, [])], 1, 0, 0),
        ("the shorter CLUSTER_LIST", [path(*core, [], originator="10.0.0.2", clusters=["9.9.9.9"]), path(*branch, [], originator="10.0.0.2")], 0, 1, 1),
        ("the lower address", [path(*branch, [], originator="10.0.0.2"), path(*core, [], originator="10.0.0.2")], 0, 1, 1),
    ]


def made(capture, config, options, link=101, before=b""):
    """The events, the report, and what is told."""
    with tempfile.TemporaryDirectory() as folder:
        paths = [os.path.join(folder, name) for name in ("capture", "config", "out")]
        capture.write(paths[0], link, before)
        with open(paths[1], "w", encoding="utf-8") as file:
            file.write(config)
        options = list(options)
        if "--also" in options:
            place = options.index("--also") + 1
            with open(os.path.join(folder, "also"), "w", encoding="utf-8") as file:
                file.write(options[place] + "\n")
            options[place] = file.name
        sys.argv = ["audit_of_pcap.py", *paths, *options]
        told = io.StringIO()
        with contextlib.redirect_stdout(io.StringIO()), contextlib.redirect_stderr(told):
            audit_of_pcap.main()
        texts = []
        for name in ("events", "report"):
            with open(os.path.join(paths[2], name), encoding="utf-8") as file:
                texts.append(file.read().splitlines())
        return texts[0], texts[1], told.getvalue().splitlines()


def differs(name, what, wanted, got):
    if wanted != got:
        print(f"{name}: {what}: wanted {wanted}, and got {got}")


def main():
    for name, write, config, events, options, told in CASES:
        capture = Capture()
        write(capture)
        got, _, said = made(capture, config, options)
        differs(name, "events", events, got)
        for line in told:
            if line not in said:
                print(f"{name}: isn't told: {line}")
    for name, paths, before, *wanted in decisions():
        for speaker, place in zip(("frr", "bird"), wanted):
            differs(name, speaker, place, paths.index(best(paths, paths[before], STEPS[speaker])))
    capture = Capture()
    plain(capture)
    # two is up 0.5 s behind the capture's begin, one tells its route at 1.2 s and withdraws it at 1.4 s, and two is told both 0.1 s later
    _, report, _ = made(capture, BOTH, ["--within", "0.15"])
    differs("marks", "report", ["by 1 two 1 0", "by 2 two 1 1"], report)
    for link, before in ((1, bytes(12) + b"\x08\x00"), (1, bytes(12) + b"\x81\x00\x00\x05\x08\x00"), (0, b"\2\0\0\0"), (113, bytes(16)), (276, bytes(20))):
        got, _, _ = made(capture, BOTH, [], link, before)
        differs(f"link {link}", "events", RIGHT, got)


if __name__ == "__main__":
    main()
