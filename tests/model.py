"""A plain model of what this program's peers are told, which the tests share: the world and each peer's table, worked out from
scratch by the rules of docs/RUNNING.md and docs/POLICY.md; texts of configurations and events, written and read; and worlds and
attributes to draw from. It shares nothing with the program.
"""

import re

IGP, EGP, INCOMPLETE = 0, 1, 2
ORIGINS = ["igp", "egp", "incomplete"]
NO_EXPORT, NO_ADVERTISE, NO_EXPORT_SUBCONFED = 0xFFFFFF01, 0xFFFFFF02, 0xFFFFFF03
NAMES = {1: "unknown-peer", 2: "already-up", 3: "not-up", 4: "no-such-prefix", 5: "unknown-policy", 6: "unknown-list",
         7: "same-path-id", 8: "too-many-paths", 9: "table-full", 11: "no-orf", 12: "orf-full", 20: "line-too-long",
         21: "bad-verb", 22: "bad-words", 23: "bad-prefix", 24: "bad-attribute", 25: "bad-name", 26: "bad-message"}


class Dice:
    """Numbers of a fixed sequence."""

    def __init__(self, seed):
        self.state = seed

    def below(self, n):
        self.state = (self.state * 6364136223846793005 + 1442695040888963407) % 2**64
        return (self.state >> 33) % n

    def one_of(self, items):
        return items[self.below(len(items))]

    def once_in(self, n):
        return self.below(n) == 0


# ---- values: an address is (family, bits), a prefix (family, bits, length), 4 and 6 for the families

WIDTH = {4: 32, 6: 128}


def v4(text):
    a, b, c, d = (int(part) for part in text.split("."))
    return (4, a << 24 | b << 16 | c << 8 | d)


def v6(text):
    if "::" in text:
        left, right = text.split("::")
        left = left.split(":") if left else []
        right = right.split(":") if right else []
        groups = left + ["0"] * (8 - len(left) - len(right)) + right
    else:
        groups = text.split(":")
    bits = 0
    for group in groups:
        bits = bits << 16 | int(group, 16)
    return (6, bits)


def address(text):
    return v6(text) if ":" in text else v4(text)


def prefix(text):
    place, length = text.split("/")
    family, bits = address(place)
    length = int(length)
    past = WIDTH[family] - length
    return (family, bits >> past << past, length)


def address_text(value):
    family, bits = value
    if family == 4:
        return ".".join(str(bits >> shift & 255) for shift in (24, 16, 8, 0))
    return ":".join("%x" % (bits >> shift & 0xFFFF) for shift in range(112, -1, -16))


def prefix_text(value):
    return "%s/%d" % (address_text(value[:2]), value[2])


def covers(outer, family, bits, length):
    past = WIDTH[outer[0]] - outer[2]
    return outer[0] == family and outer[2] <= length and bits >> past == outer[1] >> past


def community_text(value):
    return "%d:%d" % (value >> 16, value & 0xFFFF)


def path_text(segments):
    if not segments:
        return "-"
    texts = []
    for is_set, numbers in segments:
        text = ",".join(str(n) for n in numbers)
        texts.append("{%s}" % text if is_set else text)
    return ";".join(texts)


class Attributes:
    def __init__(self, origin, segments, next_hop, med=None, local_pref=None, atomic=False, aggregator=None,
                 communities=(), originator=None, clusters=()):
        self.origin = origin
        self.segments = [(is_set, list(numbers)) for is_set, numbers in segments]
        self.next_hop = next_hop
        self.med = med
        self.local_pref = local_pref
        self.atomic = atomic
        self.aggregator = aggregator
        self.communities = list(communities)
        self.originator = originator
        self.clusters = list(clusters)

    def copy(self):
        return Attributes(self.origin, self.segments, self.next_hop, self.med, self.local_pref, self.atomic,
                          self.aggregator, self.communities, self.originator, self.clusters)

    def extras(self):
        words = []
        if self.med is not None:
            words.append("med=%d" % self.med)
        if self.local_pref is not None:
            words.append("lp=%d" % self.local_pref)
        if self.atomic:
            words.append("atomic")
        if self.aggregator is not None:
            words.append("agg=%d:%s" % (self.aggregator[0], address_text(self.aggregator[1])))
        if self.communities:
            words.append("comm=" + ",".join(community_text(c) for c in self.communities))
        if self.originator is not None:
            words.append("originator=" + address_text(self.originator))
        if self.clusters:
            words.append("clusters=" + ",".join(address_text(c) for c in self.clusters))
        return words


class Path:
    """A path of the Loc-RIB; `sender` is None for the speaker's own."""

    def __init__(self, number, sender, attributes):
        self.number = number
        self.sender = sender
        self.attributes = attributes


# ---- policy

class Entry:
    def __init__(self, seq, permit, place, ge=None, le=None):
        self.seq, self.permit, self.place, self.ge, self.le = seq, permit, place, ge, le

    def matches(self, family, bits, length):
        if not covers(self.place, family, bits, length):
            return False
        if self.ge is None and self.le is None:
            return length == self.place[2]
        least = self.place[2] if self.ge is None else self.ge
        most = 32 if self.le is None else self.le
        return least <= length <= most


def permits(entries, place):
    """The entries by rising sequence: the first that matches decides, and none denies."""
    for entry in sorted(entries, key=lambda e: e.seq):
        if entry.matches(*place):
            return entry.permit
    return False


class Rule:
    """An entry of a route map. What it doesn't have is None."""

    def __init__(self, seq, permit, on_match=None, **parts):
        self.seq, self.permit, self.on_match = seq, permit, on_match
        for name in ("match_prefix_list", "match_community", "match_origin", "match_med", "match_local_pref", "set_origin",
                     "set_next_hop", "set_med", "set_local_pref", "set_prepend", "set_communities", "add_communities"):
            setattr(self, name, parts.pop(name, None))
        assert not parts


def prepended(segments, number):
    if segments and not segments[0][0] and len(segments[0][1]) < 255:
        return [(False, [number] + segments[0][1])] + segments[1:]
    return [(False, [number])] + segments


def is_met(rule, lists, place, a):
    if rule.match_prefix_list is not None and not permits(lists[rule.match_prefix_list], place):
        return False
    if rule.match_community is not None and rule.match_community not in a.communities:
        return False
    if rule.match_origin is not None and a.origin != rule.match_origin:
        return False
    if rule.match_med is not None and a.med != rule.match_med:
        return False
    if rule.match_local_pref is not None and (100 if a.local_pref is None else a.local_pref) != rule.match_local_pref:
        return False
    return True


def mapped(rules, lists, place, attributes):
    """None, or the attributes, whether the next hop was set, and whether MED was."""
    rules = sorted(rules, key=lambda r: r.seq)
    a = attributes.copy()
    set_next_hop = set_med = was_permitted = False
    at = 0
    while at < len(rules):
        rule = rules[at]
        at += 1
        if not is_met(rule, lists, place, a):
            continue
        if not rule.permit:
            return None
        was_permitted = True
        if rule.set_origin is not None:
            a.origin = rule.set_origin
        if rule.set_next_hop is not None:
            a.next_hop, set_next_hop = rule.set_next_hop, True
        if rule.set_med is not None:
            a.med, set_med = rule.set_med, True
        if rule.set_local_pref is not None:
            a.local_pref = rule.set_local_pref
        for number in reversed(rule.set_prepend or []):
            a.segments = prepended(a.segments, number)
        if rule.set_communities is not None:
            a.communities = list(rule.set_communities)
        for community in rule.add_communities or []:
            if community not in a.communities:
                a.communities.append(community)
        if rule.on_match is None:
            break
        if rule.on_match != "next":
            aim = int(rule.on_match.split()[1])
            while at < len(rules) and rules[at].seq < aim:
                at += 1
    return (a, set_next_hop, set_med) if was_permitted else None


# ---- the world

class Peer:
    def __init__(self, name, asn, router_id, own, local, subnet, family=4, policy=None, **flags):
        self.name, self.asn, self.family, self.policy = name, asn, family, policy
        self.router_id, self.own, self.local, self.subnet = v4(router_id), address(own), address(local), prefix(subnet)
        self.texts = (router_id, own, local, subnet)
        self.flags = flags
        self.is_up = False
        self.sessions = 0
        self.filter = []
        self.waiting = []

    def has(self, flag):
        return self.flags.get(flag, False)


class World:
    def __init__(self, asn, router_id, cluster_id):
        self.asn, self.router_id, self.cluster_id = asn, v4(router_id), v4(cluster_id)
        self.lists, self.maps, self.policies, self.peers = {}, {}, {}, {}
        self.routes = {}
        self.version = 0

    def kind(self, peer):
        if peer.asn != self.asn:
            return "external"
        return "client" if peer.has("client") else "internal"

    # the first refusal of an event, or None
    def verdict(self, event):
        verb, rest = event[0], event[1:]
        if verb == "withdraw":
            return None if rest[0] in self.routes else 4
        if verb == "list":
            return None if rest[0] in self.lists else 6
        if verb == "paths":
            paths = rest[1]
            if any(p.sender is not None and p.sender not in self.peers for p in paths):
                return 1
            if len({p.number for p in paths}) < len(paths):
                return 7
            if len(paths) > 8:
                return 8
            return 9 if self.is_overfull(rest[0], paths) else None
        if rest[0] not in self.peers:
            return 1
        peer = self.peers[rest[0]]
        if verb == "up":
            return 2 if peer.is_up else None
        if verb == "policy":
            return None if rest[1] is None or rest[1] in self.policies else 5
        if not peer.is_up:
            return 3
        if verb == "orf":
            if not peer.has("orf"):
                return 11
            return 12 if len(filtered(peer.waiting, rest[2])) > 1024 else None
        return None

    # over 1,048,576 prefixes, or over 2,097,152 paths, where the prefix has these paths
    def is_overfull(self, place, paths):
        if 8 * (len(self.routes) + 1) <= 2097152:
            return False
        others = sum(len(those) for those in self.routes.values()) - len(self.routes.get(place, ()))
        return len(self.routes) + (place not in self.routes) > 1048576 or others + len(paths) > 2097152

    def take(self, event):
        verb, rest = event[0], event[1:]
        self.version += 1
        if verb == "withdraw":
            del self.routes[rest[0]]
        elif verb == "list":
            self.lists[rest[0]] = rest[1]
        elif verb == "paths":
            self.routes[rest[0]] = rest[1]
        elif verb == "up":
            peer = self.peers[rest[0]]
            peer.is_up, peer.filter, peer.waiting = True, [], []
            peer.sessions += 1
        elif verb == "down":
            self.peers[rest[0]].is_up = False
        elif verb == "policy":
            self.peers[rest[0]].policy = rest[1]
        elif verb == "orf":
            peer = self.peers[rest[0]]
            peer.waiting = filtered(peer.waiting, rest[2])
            if rest[1]:
                peer.filter = peer.waiting
        else:
            peer = self.peers[rest[0]]
            peer.filter = peer.waiting

    # what a peer is told of a path: None, or the attributes
    def told(self, peer, place, path):
        kind = self.kind(peer)
        a = path.attributes
        if place[0] != peer.family:
            return None
        if NO_ADVERTISE in a.communities:
            return None
        if kind == "external" and (NO_EXPORT in a.communities or NO_EXPORT_SUBCONFED in a.communities):
            return None
        sender = None if path.sender is None else self.peers[path.sender]
        from_kind = "local" if sender is None else self.kind(sender)
        if from_kind == "internal" and kind == "internal":
            return None
        a = a.copy()
        if from_kind in ("internal", "client") and kind != "external":
            if a.originator is None:
                a.originator = sender.router_id
            a.clusters = [self.cluster_id] + a.clusters
        else:
            a.originator, a.clusters = None, []
        list_name, map_name = self.policies[peer.policy] if peer.policy is not None else (None, None)
        if list_name is not None and (place[0] != 4 or not permits(self.lists[list_name], place)):
            return None
        if peer.filter and not permits(peer.filter, place):
            return None
        set_next_hop = set_med = False
        if map_name is not None:
            raw = a.next_hop
            result = mapped(self.maps[map_name], self.lists, place, a)
            if result is None:
                return None
            a, set_next_hop, set_med = result
            if peer.family == 6:
                a.next_hop, set_next_hop = raw, False
        if peer.has("remove_private_as"):
            kept = [(s, [n for n in ns if not (64512 <= n <= 65534 or 4200000000 <= n <= 4294967294)]) for s, ns in a.segments]
            a.segments = [(s, ns) for s, ns in kept if ns]
        if peer.has("as_override"):
            a.segments = [(s, [self.asn if n == peer.asn else n for n in ns]) for s, ns in a.segments]
        if kind == "external":
            a.segments = prepended(a.segments, self.asn)
            a.local_pref = None
            if from_kind != "local" and not set_med:
                a.med = None
        elif a.local_pref is None:
            a.local_pref = 100
        if not peer.has("send_community"):
            a.communities = []
        if set_next_hop:
            pass
        elif peer.has("next_hop_self") or from_kind == "local":
            a.next_hop = peer.local
        elif kind == "external":
            if not covers(peer.subnet, a.next_hop[0], a.next_hop[1], WIDTH[a.next_hop[0]]) or a.next_hop == peer.own:
                a.next_hop = peer.local
        return a

    # the paths of a prefix that a peer may be told, each with its identifier
    def keyed(self, peer, place):
        if peer.family != place[0]:
            return []
        paths = self.routes[place]
        if peer.has("add_path"):
            return [(path.number, path) for path in paths]
        return [(0, paths[0])]

    # what the peer should have: attributes by prefix and identifier
    def table(self, peer):
        told = {}
        if not peer.is_up:
            return told
        for place in self.routes:
            for number, path in self.keyed(peer, place):
                a = self.told(peer, place, path)
                if a is not None:
                    told[place, number] = a
        return told

    # the lines of `check` for the peer's table, but for the last
    def rows(self, peer):
        told = self.table(peer)
        return ["%s id=%d %s" % (prefix_text(key[0]), key[1], " ".join(attribute_words(told[key]))) for key in sorted(told)]


def filtered(entries, changes):
    """A filter after the changes of a message: (action, entry)."""
    entries = {e.seq: e for e in entries}
    for action, entry in changes:
        if action == "add":
            entries[entry.seq] = entry
        elif action == "remove":
            entries.pop(entry.seq, None)
        else:
            entries = {}
    return [entries[seq] for seq in sorted(entries)]


# ---- texts

def quoted(text):
    return '"%s"' % text


def entry_fields(e):
    words = ["seq = %d" % e.seq, "action = " + quoted("permit" if e.permit else "deny"), "prefix = " + quoted(prefix_text(e.place))]
    if e.ge is not None:
        words.append("ge = %d" % e.ge)
    if e.le is not None:
        words.append("le = %d" % e.le)
    return "    { %s }," % ", ".join(words)


def rule_fields(r):
    words = ["seq = %d" % r.seq, "action = " + quoted("permit" if r.permit else "deny")]
    if r.on_match is not None:
        words.append("on_match = " + quoted(r.on_match))
    if r.match_prefix_list is not None:
        words.append("match_prefix_list = " + quoted(r.match_prefix_list))
    if r.match_community is not None:
        words.append("match_community = " + quoted(community_text(r.match_community)))
    if r.match_origin is not None:
        words.append("match_origin = " + quoted(ORIGINS[r.match_origin]))
    if r.match_med is not None:
        words.append("match_med = %d" % r.match_med)
    if r.match_local_pref is not None:
        words.append("match_local_pref = %d" % r.match_local_pref)
    if r.set_origin is not None:
        words.append("set_origin = " + quoted(ORIGINS[r.set_origin]))
    if r.set_next_hop is not None:
        words.append("set_next_hop = " + quoted(address_text(r.set_next_hop)))
    if r.set_med is not None:
        words.append("set_med = %d" % r.set_med)
    if r.set_local_pref is not None:
        words.append("set_local_pref = %d" % r.set_local_pref)
    if r.set_prepend is not None:
        words.append("set_prepend = %s" % r.set_prepend)
    for name in ("set_communities", "add_communities"):
        if getattr(r, name) is not None:
            words.append("%s = [%s]" % (name, ", ".join(quoted(community_text(c)) for c in getattr(r, name))))
    return "    { %s }," % ", ".join(words)


def config_text(world, **settings):
    lines = ["[local]", "as = %d" % world.asn, "router_id = " + quoted(address_text(world.router_id)),
             "cluster_id = " + quoted(address_text(world.cluster_id))]
    lines += ["%s = %d" % setting for setting in settings.items()]
    for name, entries in world.lists.items():
        lines += ["", "[[prefix_list]]", "name = " + quoted(name), "entry = ["] + [entry_fields(e) for e in entries] + ["]"]
    for name, rules in world.maps.items():
        lines += ["", "[[route_map]]", "name = " + quoted(name), "entry = ["] + [rule_fields(r) for r in rules] + ["]"]
    for name, (list_name, map_name) in world.policies.items():
        lines += ["", "[[policy]]", "name = " + quoted(name)]
        if list_name is not None:
            lines.append("prefix_list = " + quoted(list_name))
        if map_name is not None:
            lines.append("route_map = " + quoted(map_name))
    for peer in world.peers.values():
        router_id, own, local, subnet = peer.texts
        lines += ["", "[[peer]]", "name = " + quoted(peer.name), "as = %d" % peer.asn, "router_id = " + quoted(router_id)]
        if peer.family == 6:
            lines.append('family = "ipv6"')
        lines += ["address = " + quoted(own), "local_address = " + quoted(local), "subnet = " + quoted(subnet)]
        if peer.policy is not None:
            lines.append("policy = " + quoted(peer.policy))
        lines += ["%s = true" % flag for flag, is_on in peer.flags.items() if is_on]
    return "\n".join(lines) + "\n"


def attribute_words(a):
    return ["nh=" + address_text(a.next_hop), "origin=" + ORIGINS[a.origin], "as=" + path_text(a.segments)] + a.extras()


def path_words(path):
    return " ".join(["id=%d" % path.number, "from=" + (path.sender or "local")] + attribute_words(path.attributes))


def entry_word(e):
    word = "%d:%s:%s" % (e.seq, "permit" if e.permit else "deny", prefix_text(e.place))
    if e.ge is not None:
        word += ":ge=%d" % e.ge
    if e.le is not None:
        word += ":le=%d" % e.le
    return word


def request_hex():
    return "ff" * 16 + "0017" + "05" + "0001" + "00" + "01"


def filter_hex(is_now, changes):
    block = b""
    for action, e in changes:
        if action == "clear":
            block += bytes([0x80])
            continue
        first = (0x40 if action == "remove" else 0) | (0 if e.permit else 0x20)
        size = (e.place[2] + 7) // 8
        block += bytes([first]) + e.seq.to_bytes(4, "big") + bytes([e.ge or 0, e.le or 0, e.place[2]])
        block += e.place[1].to_bytes(4, "big")[:size]
    body = bytes([0, 1, 0, 1, 1 if is_now else 2, 64]) + len(block).to_bytes(2, "big") + block
    return "ff" * 16 + "%04x05" % (19 + len(body)) + body.hex()


def event_line(event):
    verb, rest = event[0], event[1:]
    if verb == "paths":
        return "paths %s %s" % (prefix_text(rest[0]), " | ".join(path_words(p) for p in rest[1]))
    if verb == "withdraw":
        return "withdraw " + prefix_text(rest[0])
    if verb == "policy":
        return "policy %s %s" % (rest[0], rest[1] or "-")
    if verb == "list":
        return "list %s %s" % (rest[0], " ".join(entry_word(e) for e in rest[1]))
    if verb == "receive":
        return "receive %s %s" % (rest[0], request_hex())
    if verb == "orf":
        return "orf %s %s" % (rest[0], filter_hex(rest[1], rest[2]))
    return "%s %s" % (verb, rest[0])


# ---- a world to draw from

def configured():
    world = World(65001, "192.0.2.254", "192.0.2.253")
    world.lists["short"] = [
        Entry(10, False, prefix("10.64.0.0/10"), le=32),
        Entry(20, True, prefix("0.0.0.0/0"), ge=8, le=24),
    ]
    world.lists["own"] = [
        Entry(30, True, prefix("10.0.0.0/9"), ge=16),
        Entry(20, False, prefix("10.0.128.0/17"), ge=20, le=24),
        Entry(40, True, prefix("172.16.0.0/12"), le=28),
    ]
    world.maps["tag"] = [
        Rule(10, True, match_community=65001 << 16 | 666, set_med=500, set_prepend=[65001, 65001], on_match="next"),
        Rule(20, False, match_origin=INCOMPLETE, match_med=7),
        Rule(30, True, match_prefix_list="own", add_communities=[65001 << 16 | 1, 65001 << 16 | 2], on_match="goto 50"),
        Rule(40, True, match_local_pref=200, set_next_hop=v4("203.0.113.200"), set_communities=[65001 << 16 | 3]),
        Rule(50, True, set_origin=IGP),
    ]
    world.maps["prefer"] = [
        Rule(10, True, match_med=3, set_local_pref=300, on_match="goto 25"),
        Rule(20, True, match_community=65001 << 16 | 666, set_local_pref=50, set_next_hop=v4("203.0.113.201"), set_prepend=[65001]),
        Rule(30, True),
    ]
    world.policies["edge"] = ("short", "tag")
    world.policies["open"] = (None, "prefer")
    world.policies["plain"] = ("own", None)
    for peer in (
        Peer("ext1", 65101, "198.51.100.1", "198.51.100.1", "198.51.100.254", "198.51.100.0/24", policy="edge", send_community=True),
        Peer("ext2", 65102, "203.0.113.2", "203.0.113.2", "203.0.113.254", "203.0.113.0/24", policy="edge", orf=True),
        Peer("ext3", 65103, "203.0.113.3", "203.0.113.3", "203.0.113.254", "203.0.113.0/24", policy="edge", add_path=True,
             send_community=True, enhanced_refresh=True),
        Peer("ext4", 64999, "192.0.2.4", "192.0.2.4", "192.0.2.254", "192.0.2.0/24", policy="plain", as_override=True,
             remove_private_as=True, extended=True),
        Peer("client1", 65001, "10.255.0.1", "10.255.0.1", "10.255.0.254", "10.255.0.0/24", policy="open", client=True,
             send_community=True, add_path=True),
        Peer("client2", 65001, "10.255.0.2", "10.255.0.2", "10.255.0.254", "10.255.0.0/24", policy="plain", client=True),
        Peer("core", 65001, "10.255.0.3", "10.255.0.3", "10.255.0.254", "10.255.0.0/24", policy="open", next_hop_self=True),
        Peer("six", 65106, "198.51.100.6", "2001:db8:6::6", "2001:db8:6::fe", "2001:db8:6::/64", family=6, policy="open",
             send_community=True, enhanced_refresh=True),
    ):
        world.peers[peer.name] = peer
    return world


def attributes_by(dice, family, sender):
    """Attributes as such a sender has them."""
    numbers = [3356, 65101, 65102, 65103, 64999, 65106, 64512, 4200000001, 174, 6939]
    segments = []
    if sender not in (None, "client1", "client2", "core") or (sender is not None and dice.once_in(2)):
        segments.append((False, [dice.one_of(numbers) for _ in range(1 + dice.below(4))]))
        if dice.once_in(6):
            segments.append((True, [dice.one_of(numbers) for _ in range(1 + dice.below(3))]))
    if sender is None:
        next_hop = (family, 0)
    elif family == 4:
        next_hop = v4(dice.one_of(["198.51.100.7", "203.0.113.7", "203.0.113.2", "203.0.113.3", "192.0.2.4", "10.255.0.9", "100.64.0.1"]))
    else:
        next_hop = v6(dice.one_of(["2001:db8:6::7", "2001:db8:6::6", "2001:db8:7::7"]))
    communities = []
    if dice.once_in(3):
        communities = [dice.one_of([65001 << 16 | 666, 65001 << 16 | 1, 65010 << 16 | 20, 1 << 16 | 1, NO_EXPORT, NO_EXPORT_SUBCONFED])]
        if dice.once_in(2):
            communities.append(dice.one_of([65001 << 16 | 2, 65010 << 16 | 21]))
        if dice.once_in(40):
            communities.append(NO_ADVERTISE)
    is_internal = sender in ("client1", "client2", "core")
    return Attributes(
        dice.below(3), segments, next_hop,
        med=dice.one_of([0, 3, 7, 4294967295]) if dice.once_in(3) else None,
        local_pref=dice.one_of([100, 200, 0]) if is_internal or dice.once_in(8) else None,
        atomic=dice.once_in(12),
        aggregator=(dice.one_of(numbers), v4("198.51.100.77")) if dice.once_in(12) else None,
        communities=communities,
        originator=v4("10.255.9.%d" % dice.below(3)) if dice.once_in(10) else None,
        clusters=[v4("10.255.8.%d" % dice.below(3)) for _ in range(1 + dice.below(2))] if dice.once_in(10) else [])


class Templates:
    """Attributes that many prefixes share."""

    def __init__(self, dice):
        self.dice = dice
        self.kept = {}
        for family in (4, 6):
            senders = [None, "ext1", "ext2", "ext3", "ext4", "client1", "client2", "core"] + (["six"] if family == 6 else [])
            self.kept[family] = []
            for _ in range(400):
                sender = dice.one_of(senders)
                self.kept[family].append((sender, attributes_by(dice, family, sender)))

    def paths(self, family):
        count = dice_count(self.dice)
        numbers = []
        while len(numbers) < count:
            number = 1 + self.dice.below(12)
            if number not in numbers:
                numbers.append(number)
        return [Path(number, *self.dice.one_of(self.kept[family])) for number in numbers]


def dice_count(dice):
    return dice.one_of([1, 1, 1, 1, 2, 2, 3, 8 if dice.once_in(10) else 2])


# ---- a configuration, read: the part of TOML that the manual speaks of

class Toml:
    """A text, and how far it was read."""

    def __init__(self, text):
        self.text = text
        self.at = 0

    def skip(self, blanks=" \t\r\n"):
        while self.at < len(self.text) and (self.text[self.at] in blanks or self.text[self.at] == "#"):
            if self.text[self.at] == "#":
                end = self.text.find("\n", self.at)
                self.at = len(self.text) if end < 0 else end
            else:
                self.at += 1

    def has(self, word):
        if self.text.startswith(word, self.at):
            self.at += len(word)
            return True
        return False

    def expect(self, pattern):
        found = re.compile(pattern).match(self.text, self.at)
        if found is None:
            raise ValueError("no %s at %d of the configuration" % (pattern, self.at))
        self.at = found.end()
        return found.group(0)

    def items(self, end, item):
        """What stands between commas, up to the end."""
        found = []
        self.skip()
        while not self.has(end):
            found.append(item())
            self.skip()
            if not self.has(","):
                self.expect(re.escape(end))
                break
            self.skip()
        return found

    def field(self):
        name = self.expect(r"[A-Za-z0-9_-]+")
        self.expect(r"[ \t]*=[ \t]*")
        return name, self.value()

    def value(self):
        if self.has('"'):
            return self.expect(r'[^"\\\n]*"')[:-1]
        if self.has("["):
            return self.items("]", self.value)
        if self.has("{"):
            return dict(self.items("}", self.field))
        word = self.expect(r"[a-z0-9]+")
        return {"true": True, "false": False}[word] if word in ("true", "false") else int(word)

    def document(self):
        whole = {}
        here = whole
        self.skip()
        while self.at < len(self.text):
            if self.has("[["):
                here = whole
                way = re.split(r"[ \t]*\.[ \t]*", self.expect(r"[^]\n]*").strip())
                self.expect(r"\]\]")
                for name in way[:-1]:
                    here = here[name][-1]
                here.setdefault(way[-1], []).append({})
                here = here[way[-1]][-1]
            elif self.has("["):
                here = whole.setdefault(self.expect(r"[^]\n]*").strip(), {})
                self.expect(r"\]")
            else:
                name, value = self.field()
                here[name] = value
            self.skip()
        return whole


def community(text):
    upper, lower = text.split(":")
    return int(upper) << 16 | int(lower)


def rule_of(fields):
    parts = dict(fields)
    convert = {"match_community": community, "match_origin": ORIGINS.index, "set_origin": ORIGINS.index, "set_next_hop": v4,
               "set_communities": lambda texts: [community(text) for text in texts],
               "add_communities": lambda texts: [community(text) for text in texts]}
    for name, of in convert.items():
        if name in parts:
            parts[name] = of(parts[name])
    return Rule(parts.pop("seq"), parts.pop("action") == "permit", **parts)


def read_config(text):
    """The world of a configuration that is accepted."""
    document = Toml(text).document()
    local = document["local"]
    world = World(local["as"], local["router_id"], local.get("cluster_id", local["router_id"]))
    for fields in document.get("prefix_list", []):
        world.lists[fields["name"]] = [Entry(e["seq"], e["action"] == "permit", prefix(e["prefix"]), e.get("ge"), e.get("le"))
                                       for e in fields.get("entry", [])]
    for fields in document.get("route_map", []):
        world.maps[fields["name"]] = [rule_of(entry) for entry in fields.get("entry", [])]
    for fields in document.get("policy", []):
        world.policies[fields["name"]] = (fields.get("prefix_list"), fields.get("route_map"))
    for fields in document.get("peer", []):
        flags = {name: value for name, value in fields.items() if isinstance(value, bool)}
        world.peers[fields["name"]] = Peer(fields["name"], fields["as"], fields["router_id"], fields["address"], fields["local_address"],
                                           fields["subnet"], 6 if fields.get("family") == "ipv6" else 4, fields.get("policy"), **flags)
    return world


# ---- a line of events, read

class Refused(Exception):
    """The line is refused as a line, with this number, and for 26 with that of its message."""

    def __init__(self, number, inner=None):
        super().__init__(number)
        self.number, self.inner = number, inner


TOO_LONG, BAD_VERB, BAD_WORDS, BAD_PREFIX, BAD_ATTRIBUTE, BAD_NAME, BAD_MESSAGE = range(20, 27)


def asked(holds, number=BAD_WORDS):
    if not holds:
        raise Refused(number)


def or_else(number, read):
    """The same reader, which refuses with this number."""
    def of(text):
        try:
            return read(text)
        except Refused:
            raise Refused(number) from None
    return of


def number_in(text, digits=10, most=4294967295):
    asked(re.fullmatch("[0-9]{1,%d}" % digits, text) and int(text) <= most)
    return int(text)


def positive_in(text):
    number = number_in(text)
    asked(number > 0)
    return number


def name_in(text):
    asked(re.fullmatch("[a-z][a-z0-9_-]{0,31}", text), BAD_NAME)
    return text


def v4_in(text):
    parts = text.split(".")
    asked(len(parts) == 4)
    bits = 0
    for part in parts:
        bits = bits << 8 | number_in(part, 3, 255)
    return (4, bits)


def groups_in(text):
    groups = text.split(":") if text else []
    asked(all(re.fullmatch("[0-9a-fA-F]{1,4}", group) for group in groups))
    return [int(group, 16) for group in groups]


def v6_in(text):
    before, gap, behind = text.partition("::")
    front, back = groups_in(before), groups_in(behind)
    asked(len(front) + len(back) <= 7 if gap else len(front) == 8)
    bits = 0
    for group in front + [0] * (8 - len(front) - len(back)) + back:
        bits = bits << 16 | group
    return (6, bits)


def address_in(family, text):
    return v4_in(text) if family == 4 else v6_in(text)


def prefix_in(text, family=None):
    family = family or (6 if ":" in text else 4)
    place, slash, length = text.partition("/")
    asked(slash)
    bits = address_in(family, place)[1]
    length = number_in(length, 2 if family == 4 else 3, WIDTH[family])
    past = WIDTH[family] - length
    return (family, bits >> past << past, length)


def community_in(text):
    upper, colon, lower = text.partition(":")
    asked(colon)
    return number_in(upper, 5, 65535) << 16 | number_in(lower, 5, 65535)


def aggregator_in(text):
    number, colon, place = text.partition(":")
    asked(colon)
    return (number_in(number), v4_in(place))


def segment_in(text):
    is_set = len(text) >= 2 and text[0] == "{" and text[-1] == "}"
    numbers = [number_in(word) for word in (text[1:-1] if is_set else text).split(",")]
    asked(len(numbers) <= 255)
    return (is_set, numbers)


def segments_in(text):
    return [] if text == "-" else [segment_in(part) for part in text.split(";")]


def origin_in(text):
    asked(text in ORIGINS)
    return ORIGINS.index(text)


def each_in(read):
    return lambda text: [read(part) for part in text.split(",")]


def readers_in(family):
    """How the value of each field of a path is read."""
    values = {"id": positive_in, "nh": lambda text: address_in(family, text), "origin": origin_in, "as": segments_in, "med": number_in, "lp": number_in,
              "atomic": lambda text: True, "agg": aggregator_in, "comm": each_in(community_in), "originator": v4_in, "clusters": each_in(v4_in)}
    readers = {name: or_else(BAD_ATTRIBUTE, read) for name, read in values.items()}
    readers["from"] = lambda text: None if text == "local" else name_in(text)
    return readers


def path_in(family, words):
    """A path of a `paths` line, by its words."""
    readers, values = readers_in(family), {}
    for word in words:
        name, equals, value = word.partition("=")
        asked(name in readers and name not in values and (not equals if name == "atomic" else equals))
        values[name] = readers[name](value)
    asked(all(name in values for name in ("id", "from", "nh", "origin", "as")))
    asked(sum(len(numbers) for _, numbers in values["as"]) <= 300 and len(values["as"]) <= 16, BAD_ATTRIBUTE)
    asked(len(values.get("comm", [])) <= 128 and len(values.get("clusters", [])) <= 32, BAD_ATTRIBUTE)
    return Path(values["id"], values["from"], Attributes(values["origin"], values["as"], values["nh"], values.get("med"), values.get("lp"),
                values.get("atomic", False), values.get("agg"), values.get("comm", []), values.get("originator"), values.get("clusters", [])))


def paths_in(family, words):
    runs = [[]]
    for word in words:
        if word == "|":
            runs.append([])
        else:
            runs[-1].append(word)
    return [path_in(family, run) for run in runs]


def bound_in(word, name):
    asked(word.startswith(name + "="))
    return number_in(word[len(name) + 1:])


def is_good(e):
    lengths = [e.place[2]] + [bound for bound in (e.ge, e.le) if bound is not None] + [32]
    return lengths == sorted(lengths)


def entry_in(word):
    parts = word.split(":")
    asked(len(parts) >= 3)
    number = number_in(parts[0])
    asked(parts[1] in ("permit", "deny"))
    place = or_else(BAD_PREFIX, lambda text: prefix_in(text, 4))(parts[2])
    bounds = parts[3:]
    ge = bound_in(bounds.pop(0), "ge") if bounds and bounds[0].startswith("ge=") else None
    le = bound_in(bounds.pop(0), "le") if bounds else None
    asked(not bounds)
    return Entry(number, parts[1] == "permit", place, ge, le)


def entries_in(words):
    entries = [entry_in(word) for word in words]
    asked(0 < len(entries) <= 1024 and len({e.seq for e in entries}) == len(entries) and all(is_good(e) for e in entries))
    return entries


def bytes_in(word):
    asked(len(word) % 2 == 0 and re.fullmatch("[0-9a-fA-F]*", word))
    return bytes.fromhex(word)


def needs(holds, inner):
    """Or else the message of a line is refused with this number."""
    if not holds:
        raise Refused(BAD_MESSAGE, inner)


def header_in(m):
    needs(m[:16] == b"\xff" * 16, 2)
    needs(m[18] == 5, 3)
    needs(m[19:21] == b"\0\1" and m[22] == 1, 4)


def request_in(word):
    m = bytes_in(word)
    needs(len(m) == 23 and int.from_bytes(m[16:18], "big") == 23, 1)
    header_in(m)
    needs(m[21] == 0, 5)


def block_entries(block):
    changes = []
    while block:
        action = block[0] >> 6
        needs(action != 3, 7)
        if action == 2:
            changes.append(("clear", None))
            block = block[1:]
            continue
        needs(len(block) >= 8, 6)
        needs(block[7] <= 32, 8)
        length = block[7]
        size = (length + 7) // 8
        needs(len(block) >= 8 + size, 6)
        bits = int.from_bytes(block[8:8 + size] + bytes(4 - size), "big") >> 32 - length << 32 - length
        e = Entry(int.from_bytes(block[1:5], "big"), not block[0] & 32, (4, bits, length), block[5] or None, block[6] or None)
        needs(action == 1 or is_good(e), 8)
        changes.append(("remove" if action == 1 else "add", e))
        block = block[8 + size:]
    return changes


def filter_in(word):
    """Whether a filter holds at once, and its changes."""
    m = bytes_in(word)
    needs(24 <= len(m) <= 4096 and int.from_bytes(m[16:18], "big") == len(m), 1)
    header_in(m)
    needs(m[23] in (1, 2), 5)
    needs(m[21] == 0, 9)
    changes = []
    blocks = m[24:]
    while blocks:
        needs(len(blocks) >= 3, 6)
        size = 3 + int.from_bytes(blocks[1:3], "big")
        needs(len(blocks) >= size, 6)
        if blocks[0] == 64:
            changes += block_entries(blocks[3:size])
        blocks = blocks[size:]
    return m[23] == 1, changes


def read_line(line):
    """What a line of events says: None where it says nothing, `("sync",)`, or an event. The first word that can't be read decides."""
    asked(len(line) <= 4096, TOO_LONG)
    words = [word for word in (line[:-1] if line.endswith(b"\r") else line).decode("latin-1").split(" ") if word]
    if not words or words[0].startswith("#"):
        return None
    verb, words = words[0], words[1:]
    prefix_word = or_else(BAD_PREFIX, prefix_in)
    if verb == "paths":
        asked(words)
        place = prefix_word(words[0])
        return verb, place, paths_in(place[0], words[1:])
    if verb == "list":
        asked(words)
        return verb, name_in(words[0]), entries_in(words[1:])
    read = {"sync": [], "up": [name_in], "down": [name_in], "refresh": [name_in], "withdraw": [prefix_word],
            "policy": [name_in, lambda word: None if word == "-" else name_in(word)],
            "receive": [name_in, request_in], "orf": [name_in, filter_in]}
    asked(verb in read, BAD_VERB)
    values = []
    for place, of in enumerate(read[verb]):
        asked(place < len(words))
        values.append(of(words[place]))
    asked(len(words) == len(values))
    if verb == "orf":
        return verb, values[0], values[1][0], values[1][1]
    return (verb,) + tuple(values)


# ---- files as lines

def lines_of(data):
    """Lines end at newlines; bytes behind the last one are a line where there are any."""
    lines = data.split(b"\n")
    return lines if lines[-1] else lines[:-1]
