"""A session as its receiver hears it, for the plain, slow auditor: its messages, where each begins, and the table after each.

Nothing of it is taken from the program; docs/CHECK.md says what can be read.
"""

WHOLE, CUT, MALFORMED = "whole", "cut", "malformed"


class Fault(Exception):
    """A message can't be read."""


def needed(holds):
    if not holds:
        raise Fault


def number(data):
    return int.from_bytes(data, "big")


def four_by_four(data):
    return [data[at:at + 4] for at in range(0, len(data), 4)]


def routes_read(family, add_path, data):
    """Keys: a prefix and an identifier."""
    width = 32 if family == 4 else 128
    keys = []
    while data:
        identifier = 0
        if add_path:
            needed(len(data) >= 4)
            identifier, data = number(data[:4]), data[4:]
        needed(data and data[0] <= width)
        length = data[0]
        size = (length + 7) // 8
        needed(len(data) > size)
        bits = number(data[1:1 + size] + bytes(width // 8 - size))
        past = width - length
        keys.append(((family, bits >> past << past, length), identifier))
        data = data[1 + size:]
    return keys


def segments_read(data):
    segments = []
    while data:
        needed(len(data) >= 2 and data[0] in (1, 2) and data[1] > 0 and len(data) >= 2 + 4 * data[1])
        end = 2 + 4 * data[1]
        segments.append((data[0] == 1, tuple(number(word) for word in four_by_four(data[2:end]))))
        data = data[end:]
    return tuple(segments)


# of each type its flags, the lengths that its value may have, and what the value says
KINDS = {
    1: (0x40, lambda n: n == 1, lambda v: v[0]),
    2: (0x40, lambda n: True, segments_read),
    3: (0x40, lambda n: n == 4, lambda v: (4, number(v))),
    4: (0x80, lambda n: n == 4, number),
    5: (0x40, lambda n: n == 4, number),
    6: (0x40, lambda n: n == 0, lambda v: True),
    7: (0xC0, lambda n: n == 8, lambda v: (number(v[:4]), (4, number(v[4:])))),
    8: (0xC0, lambda n: n % 4 == 0, lambda v: tuple(number(word) for word in four_by_four(v))),
    9: (0x80, lambda n: n == 4, lambda v: (4, number(v))),
    10: (0x80, lambda n: n % 4 == 0, lambda v: tuple((4, number(word)) for word in four_by_four(v))),
}
MP_REACH, MP_UNREACH = 14, 15


def is_ipv6_unicast(value):
    return value[:3] == b"\x00\x02\x01"


def reach_read(value):
    needed(is_ipv6_unicast(value) and len(value) >= 4 and value[3] in (16, 32) and len(value) >= 5 + value[3])
    return (6, number(value[4:20])), value[5 + value[3]:]


def unreach_read(value):
    needed(is_ipv6_unicast(value))
    return value[3:]


def attributes_read(family, data):
    """The values of the attributes by their types, and how many there are of other types, which nothing is compared of."""
    kinds = dict(KINDS)
    if family == 6:
        kinds[MP_REACH] = (0x80, lambda n: True, reach_read)
        kinds[MP_UNREACH] = (0x80, lambda n: True, unreach_read)
    seen, values, unknown = set(), {}, 0
    while data:
        head = 4 if data[0] & 0x10 else 3
        needed(len(data) >= head)
        size = number(data[2:head])
        needed(len(data) >= head + size)
        flags, kind, value = data[0], data[1], data[head:head + size]
        data = data[head + size:]
        needed(kind not in seen)
        seen.add(kind)
        if kind not in kinds:
            needed(flags & 0x80)
            unknown += 1
            continue
        wanted, has_length, read = kinds[kind]
        needed(flags & 0xC0 == wanted and (not flags & 0x20 or kind in (7, 8)) and has_length(size))
        values[kind] = read(value)
        needed(kind != 1 or values[1] <= 2)
    return values, unknown


def attributes_of(values, next_hop):
    """All attributes of a route, as one value."""
    needed(1 in values and 2 in values and next_hop is not None)
    return (values[1], values[2], next_hop, values.get(4), values.get(5), values.get(6, False), values.get(7), values.get(8, ()),
            values.get(9), values.get(10, ()))


class Update:
    """The withdrawn keys, the announced keys, their attributes, and how many attributes aren't compared."""

    def __init__(self, withdrawn, announced, attributes, unknown):
        self.withdrawn, self.announced, self.attributes, self.unknown = withdrawn, announced, attributes, unknown

    def named(self):
        return set(self.withdrawn) | set(self.announced)


def update_read(family, add_path, m):
    withdrawn = number(m[19:21])
    needed(len(m) >= 23 + withdrawn)
    size = number(m[21 + withdrawn:23 + withdrawn])
    needed(len(m) >= 23 + withdrawn + size)
    before, among, behind = m[21:21 + withdrawn], m[23 + withdrawn:23 + withdrawn + size], m[23 + withdrawn + size:]
    if family == 6:
        needed(not before and not behind)
        values, unknown = attributes_read(family, among)
        next_hop, behind = values.get(MP_REACH, (None, b""))
        before = values.get(MP_UNREACH, b"")
        attributes = attributes_of(values, next_hop) if behind else None
        return Update(routes_read(6, add_path, before), routes_read(6, add_path, behind), attributes, unknown)
    gone = routes_read(4, add_path, before)
    values, unknown = attributes_read(family, among)
    attributes = attributes_of(values, values.get(3)) if behind else None
    return Update(gone, routes_read(4, add_path, behind), attributes, unknown)


BEGINS, ENDS, IGNORED = "begins", "ends", "ignored"


def message_read(family, add_path, m):
    """An update, or what a ROUTE-REFRESH says."""
    if m[18] == 2:
        return update_read(family, add_path, m)
    if number(m[19:21]) == (1 if family == 4 else 2) and m[22] == 1 and m[21] in (1, 2):
        return BEGINS if m[21] == 1 else ENDS
    return IGNORED


class Heard:
    """The messages of a session, where each begins and the last one ends, and what stands behind them."""

    def __init__(self, peer, data):
        self.messages, self.begins, self.end, self.ending = [], [], 0, WHOLE
        try:
            self.read(peer.family, peer.has("add_path"), 65535 if peer.has("extended") else 4096, data)
        except Fault:
            self.ending = MALFORMED

    def read(self, family, add_path, limit, data):
        while len(data) - self.end >= 19:
            at = self.end
            size, kind = number(data[at + 16:at + 18]), data[at + 18]
            needed(data[at:at + 16] == b"\xff" * 16 and 19 <= size <= limit and kind in (2, 5))
            needed(size >= 23 if kind == 2 else size == 23)
            if len(data) - at < size:
                break
            self.messages.append(message_read(family, add_path, data[at:at + size]))
            self.begins.append(at)
            self.end = at + size
        if self.end < len(data):
            self.ending = CUT

    def named(self):
        """All keys that its updates name."""
        return set().union(*(message.named() for message in self.messages if isinstance(message, Update)))

    def unknown(self):
        return sum(message.unknown for message in self.messages if isinstance(message, Update))

    def tables(self, alike):
        """The receiver's table before the first message and after each, attributes by key, and which keys each message names or changes."""
        table, stale = {}, set()
        tables, touched = [table], [set()]
        for message in self.messages:
            before, table = table, dict(table)
            names = set()
            if isinstance(message, Update):
                names = message.named()
                for key in message.withdrawn:
                    table.pop(key, None)
                value = alike(message.attributes) if message.announced else None
                for key in message.announced:
                    table[key] = value
                stale = stale - names
            elif message == BEGINS:
                stale = set(table)
            elif message == ENDS:
                table = {key: value for key, value in table.items() if key not in stale}
                names, stale = stale & set(before), set()
            tables.append(table)
            touched.append(names)
        return tables, touched
