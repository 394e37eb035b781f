"""What neighbors' messages say: the capabilities of an OPEN (RFC 5492), and the routes of an UPDATE (RFC 4271 section 4.3) as words of a file
of events."""
import ipaddress

EXTENDED, ADD_PATH, ENHANCED_REFRESH, AS4 = 6, 69, 70, 65
ORF = (3, 130)
ORIGINS = ["igp", "egp", "incomplete"]
RECEIVES, SENDS = 1, 2


class Unreadable(Exception):
    """An UPDATE that can't be read, with a reason."""


class Open:
    """An OPEN: AS number, router id, and what the capabilities say."""

    def __init__(self, message):
        body = message[19:]
        self.asn, self.router_id = int.from_bytes(body[1:3], "big"), str(ipaddress.IPv4Address(body[5:9]))
        self.codes, self.add_path, self.has_as4 = set(), {}, False
        for code, value in capabilities_of(body[10:10 + body[9]]):
            self.codes.add(code)
            if code == AS4 and len(value) == 4:
                self.asn, self.has_as4 = int.from_bytes(value, "big"), True
            elif code == ADD_PATH:
                for at in range(0, len(value) - 3, 4):
                    self.add_path[int.from_bytes(value[at:at + 2], "big"), value[at + 2]] = value[at + 3]


def capabilities_of(options):
    """Each capability of the optional parameters: its code and its value."""
    while len(options) >= 2:
        kind, value, options = options[0], options[2:2 + options[1]], options[2 + options[1]:]
        while kind == 2 and len(value) >= 2:
            yield value[0], value[2:2 + value[1]]
            value = value[2 + value[1]:]


def has_identifiers(sender, receiver, family):
    """Routes of the sender have path identifiers (RFC 7911 section 4)."""
    kind = (1 if family == 4 else 2, 1)
    return bool(sender.add_path.get(kind, 0) & SENDS and receiver.add_path.get(kind, 0) & RECEIVES)


def routes_of(data, family, with_identifiers):
    """Each prefix with its path identifier, 0 where there is none."""
    found, at, width = [], 0, 4 if family == 4 else 16
    while at < len(data):
        identifier = int.from_bytes(data[at:at + 4], "big") if with_identifiers else 0
        at += 4 * with_identifiers
        size = (data[at] + 7) // 8
        if data[at] > 8 * width or at + 1 + size > len(data):
            raise Unreadable("a prefix that is too long")
        text = data[at + 1:at + 1 + size].ljust(width, b"\0")
        found.append((ipaddress.ip_network((text, data[at]), strict=False), identifier))
        at += 1 + size
    return found


def numbers_of(data, width):
    return [int.from_bytes(data[at:at + width], "big") for at in range(0, len(data), width)]


def address(data):
    return str(ipaddress.ip_address(bytes(data)))


def segments_of(data, width):
    """The AS path: lists of numbers, each with whether it is a set."""
    segments = []
    while data:
        end = 2 + width * data[1]
        if data[0] not in (1, 2):
            raise Unreadable("a confederation in the AS path")
        segments.append((data[0] == 1, numbers_of(data[2:end], width)))
        data = data[end:]
    return segments


def with_four(segments, fours):
    """The AS path of an old speaker, whose last numbers stand with four bytes elsewhere (RFC 6793 section 4.2.3)."""
    lead = length_of(segments) - length_of(fours)
    if lead < 0:
        return segments
    front = []
    for is_set, numbers in segments:
        taken = numbers if is_set else numbers[:lead]
        if lead > 0:
            front.append((is_set, taken))
        lead -= 1 if is_set else len(taken)
    if front and fours and not front[-1][0] and not fours[0][0]:
        return front[:-1] + [(False, front[-1][1] + fours[0][1])] + fours[1:]
    return front + fours


def length_of(segments):
    """How long an AS path is, a set counting once (RFC 4271 section 9.1.2.2 a)."""
    return sum(1 if is_set else len(numbers) for is_set, numbers in segments)


def text_of(segments):
    parts = [",".join(map(str, numbers)) for _, numbers in segments]
    return ";".join("{%s}" % part if is_set else part for (is_set, _), part in zip(segments, parts)) or "-"


class Route:
    """The attributes of a route that a neighbor told, by the names of a file of events."""

    def __init__(self):
        self.segments, self.origin, self.next_hop = None, None, None
        self.med = self.local_pref = self.aggregator = self.originator = None
        self.is_atomic, self.communities, self.clusters = False, [], []

    def length(self):
        return length_of(self.segments)

    def first_as(self):
        """The neighboring AS; None where the path is empty or begins with a set."""
        return None if not self.segments or self.segments[0][0] else self.segments[0][1][0]

    def shown(self):
        """What of a route other speakers don't change: its origin and its AS path, whose sets may be sorted."""
        return self.origin, tuple((is_set, tuple(sorted(set(numbers)) if is_set else numbers)) for is_set, numbers in self.segments)

    def words(self):
        said = [f"nh={self.next_hop}", f"origin={ORIGINS[self.origin]}", f"as={text_of(self.segments)}"]
        for name, value in (("med", self.med), ("lp", self.local_pref), ("agg", self.aggregator), ("originator", self.originator)):
            if value is not None:
                said.append(f"{name}={value}")
        if self.is_atomic:
            said.append("atomic")
        if self.communities:
            said.append("comm=" + ",".join(f"{number >> 16}:{number & 65535}" for number in self.communities))
        if self.clusters:
            said.append("clusters=" + ",".join(self.clusters))
        return said


class Update:
    """An UPDATE: what it withdraws and announces, the attributes, and the types that a file of events has no word for."""

    def __init__(self, message, family, with_identifiers, width):
        body = message[19:]
        size = int.from_bytes(body[:2], "big")
        behind = 4 + size + int.from_bytes(body[2 + size:4 + size], "big")
        if behind > len(body):
            raise Unreadable("attributes that don't fit")
        self.family, self.with_identifiers, self.width = family, with_identifiers, width
        self.route, self.unsaid, self.fours = Route(), [], None
        self.withdrawn = self.announced = ()
        if family == 4:
            self.withdrawn = routes_of(body[2:2 + size], 4, with_identifiers)
            self.announced = routes_of(body[behind:], 4, with_identifiers)
        for kind, value in attributes_of(body[4 + size:behind]):
            self.take(kind, value)
        if self.fours is not None and width == 2:
            self.route.segments = with_four(self.route.segments, self.fours)
        if self.announced and None in (self.route.segments, self.route.origin, self.route.next_hop):
            raise Unreadable("a route without ORIGIN, AS_PATH or NEXT_HOP")

    def take(self, kind, value):
        route = self.route
        if kind == 1:
            route.origin = value[0]
        elif kind == 2:
            route.segments = segments_of(value, self.width)
        elif kind == 3:
            route.next_hop = route.next_hop if self.family == 6 else address(value)
        elif kind in (4, 5):
            setattr(route, "med" if kind == 4 else "local_pref", int.from_bytes(value, "big"))
        elif kind == 6:
            route.is_atomic = True
        elif kind == 7:
            route.aggregator = "%d:%s" % (int.from_bytes(value[:-4], "big"), address(value[-4:]))
        elif kind == 8:
            route.communities = numbers_of(value, 4)
        elif kind == 9:
            route.originator = address(value)
        elif kind == 10:
            route.clusters = [address(value[at:at + 4]) for at in range(0, len(value), 4)]
        elif kind == 17:
            self.fours = segments_of(value, 4)
        elif kind == 14 and self.family == 6 and value[:3] == b"\0\2\1":
            route.next_hop = address(value[4:20])
            self.announced = routes_of(value[5 + value[3]:], 6, self.with_identifiers)
        elif kind == 15 and self.family == 6 and value[:3] == b"\0\2\1":
            self.withdrawn = routes_of(value[3:], 6, self.with_identifiers)
        elif kind not in (14, 15, 18):
            self.unsaid.append(kind)


def attributes_of(data):
    """Each attribute: its type and its value."""
    while data:
        head = 4 if data[0] & 16 else 3
        size = int.from_bytes(data[2:head], "big")
        yield data[1], data[head:head + size]
        data = data[head + size:]
