"""A speaker as a capture shows it: its sessions with the peers of a configuration, and the events that its neighbors' routes make by its own
decision process.
"""
import collections
import ipaddress

from best_paths import STEPS, Neighbor, Path, best, is_loop, taken, with_med_zero
from messages import KEEPALIVE, NOTIFICATION, OPEN, ROUTE_REFRESH, UPDATE, kind_of
from tcp_streams import BROKEN, END, MESSAGE, pieces_of
from updates import ENHANCED_REFRESH, EXTENDED, ORF, ORIGINS, Open, Unreadable, Update, has_identifiers

PORT = 179
MOST_PATHS, MOST_BYTES = 8, 4096


class Session:
    """A session of the speaker with a peer: its connection, both OPENs, and what the speaker said since it is up."""

    def __init__(self, peer):
        self.peer, self.opens = peer, {}
        self.is_up = self.is_over = self.is_lost = False
        self.up_at = self.down_at = self.end_at = None
        self.messages = []

    def is_open(self):
        return self.down_at is None

    def lose(self, time):
        """From then on nothing is known of it."""
        self.is_lost, self.end_at = True, time
        self.messages = [told for told in self.messages if told[0] < time]

    def width(self):
        """How many bytes an AS number has (RFC 6793)."""
        return 4 if all(said.has_as4 for said in self.opens.values()) else 2


class Line:
    """A line of what happened beside the capture: seconds since 1970, or with a + since the capture began, and an event."""

    def __init__(self, text):
        self.at, _, self.text = text.strip().partition(" ")
        self.text = self.text.strip()

    def time(self, begin):
        return begin + float(self.at[1:]) if self.at.startswith("+") else float(self.at)


def path_words(path, route):
    return f"from={'local' if path.is_own() else path.neighbor.name} " + " ".join(route.words())


class Entry:
    """An event: its time, and what it says: its words, or a prefix with its paths and the route of each, the best first. `peer` is whose
    session it is about, where it is about one."""

    def __init__(self, time, peer=None, words=None, prefix=None, paths=()):
        self.time, self.peer, self.words, self.prefix, self.paths = time, peer, words, prefix, paths

    def text(self, identifiers):
        if self.prefix is None:
            return self.words
        if not self.paths:
            return f"withdraw {self.prefix}"
        numbers = identifiers.of([path for path, _ in self.paths])
        return f"paths {self.prefix} " + " | ".join(f"id={number} {path_words(*told)}" for number, told in zip(numbers, self.paths))


class Speaker:
    """Follows a capture: sessions come and go, neighbors tell routes, and each change is an event."""

    def __init__(self, config, kind, also, address=None, strict=False):
        self.local, self.peers = config["local"], config.get("peer", [])
        self.kind, self.also, self.strict = kind, also, strict
        self.by_address = {(peer["address"], address or peer["local_address"]): peer for peer in self.peers}
        self.neighbors = {peer["name"]: Neighbor(peer, self.local["as"]) for peer in self.peers}
        self.links, self.open, self.sessions, self.entries = {}, {}, [], []
        self.routes, self.bests = collections.defaultdict(dict), {}
        self.stale = collections.defaultdict(set)
        self.senders, self.told, self.unsaid = set(), [], collections.Counter()
        self.begin = self.time = None
        self.is_over = False

    # ---- pieces of connections

    def follow(self, segments):
        for piece in pieces_of(self.timed(segments), PORT):
            if self.is_over:
                return
            self.take(piece)
        self.take_also(float("inf"))

    def timed(self, segments):
        """The segments, while what happened beside the capture is taken in its time."""
        for segment in segments:
            self.begin = segment.time if self.begin is None else self.begin
            self.time = segment.time
            self.take_also(segment.time)
            yield segment

    def take_also(self, time):
        """Each line of what happened beside the capture, up to this time."""
        while self.also and self.begin is not None and self.also[0].time(self.begin) <= time:
            line = self.also.pop(0)
            self.take_line(min(line.time(self.begin), self.time), line.text)

    def link_of(self, connection):
        """The session of a connection, where it is one of CONFIG's, and which of its ends is the speaker."""
        if connection not in self.links:
            found = None
            for end in connection.ends:
                peer = self.by_address.get((end[0], connection.other(end)[0]))
                if peer is not None:
                    found = Session(peer), connection.other(end)
            if found is None:
                self.unsaid["a connection of no peer of CONFIG: " + " and ".join(end[0] for end in connection.ends)] += 1
            self.links[connection] = found
        return self.links[connection]

    def take(self, piece):
        link = self.link_of(piece.connection)
        if link is None:
            return
        session, speaker = link
        is_speaker = piece.sender == speaker
        if piece.kind == MESSAGE:
            (self.heard if is_speaker else self.received)(session, piece.time, piece.value)
        elif piece.kind == END:
            self.down(session, piece.time)
        elif piece.kind == BROKEN:
            self.broken(session, is_speaker, *piece.value)

    def broken(self, session, is_speaker, why, since):
        """What can't be judged any more: a session, or all of them where what a neighbor told is missing."""
        name = session.peer["name"]
        if session.up_at is None:
            self.say(f"{name}: {why}, in a session whose begin isn't in the capture")
        elif is_speaker:
            self.say(f"{name}: of what it was sent are missing {why}: behind {since - self.begin:.3f} s that session isn't judged")
            session.lose(since)
        else:
            self.say(f"{name}: of what it told are missing {why}: nothing behind {since - self.begin:.3f} s is judged")
            self.end(since)

    def end(self, time):
        """As if the capture had ended then, in the midst of all sessions."""
        self.time, self.is_over = time, True
        self.sessions = [session for session in self.sessions if session.up_at < time]
        self.entries = [entry for entry in self.entries if entry.time < time]
        for session in self.sessions:
            if session.down_at is None or session.down_at >= time:
                session.lose(time)

    # ---- what the speaker said

    def heard(self, session, time, message):
        kind = kind_of(message)
        if kind == OPEN:
            session.opens["speaker"] = Open(message)
        elif kind == NOTIFICATION:
            self.down(session, time)
        elif kind in (UPDATE, ROUTE_REFRESH) and session.is_up and not session.is_lost:
            if kind == UPDATE or len(message) == 23:
                session.messages.append((time, message))

    # ---- what a neighbor said

    def received(self, session, time, message):
        kind, name = kind_of(message), session.peer["name"]
        if kind == OPEN:
            session.opens["neighbor"] = Open(message)
        elif kind == KEEPALIVE and len(session.opens) == 2 and not session.is_up and not session.is_over:
            self.up(session, time)
        elif kind == NOTIFICATION:
            self.down(session, time)
        elif kind == UPDATE and session.is_up:
            self.updated(session, time, message)
        elif kind == ROUTE_REFRESH and session.is_up:
            self.asked(session, time, message)
        elif kind in (UPDATE, ROUTE_REFRESH):
            self.say(f"{name}: a session whose begin isn't in the capture")

    def up(self, session, time):
        name = session.peer["name"]
        if name in self.open:
            self.down(self.open[name], time)
        session.is_up, session.up_at = True, time
        self.open[name] = session
        self.sessions.append(session)
        self.entries.append(Entry(time, name, f"up {name}"))
        self.compare(session)

    def down(self, session, time):
        name = session.peer["name"]
        if session.is_up and not session.is_over:
            session.down_at = time
            session.end_at = time if session.end_at is None else session.end_at
            del self.open[name]
            self.entries.append(Entry(time, name, f"down {name}"))
            for prefix in [prefix for prefix, paths in self.routes.items() if any(key[0] == name for key in paths)]:
                for key in [key for key in self.routes[prefix] if key[0] == name]:
                    del self.routes[prefix][key]
                self.changed(time, prefix)
        session.is_over = True
        session.is_up = False

    def compare(self, session):
        """Says where CONFIG isn't what the OPENs agreed on."""
        peer, name = session.peer, session.peer["name"]
        mine, other = session.opens["speaker"], session.opens["neighbor"]
        family = 6 if peer.get("family") == "ipv6" else 4
        agreed = {"as": other.asn, "router_id": other.router_id, "add_path": has_identifiers(mine, other, family),
                  "extended": EXTENDED in mine.codes & other.codes, "orf": any(code in mine.codes & other.codes for code in ORF),
                  "enhanced_refresh": ENHANCED_REFRESH in mine.codes & other.codes}
        for field, value in agreed.items():
            if peer.get(field, False) != value:
                self.say(f"{name}: CONFIG says {field} = {peer.get(field, False)}, and its OPENs come to {value}")
        for field, value in (("as", mine.asn), ("router_id", mine.router_id)):
            if self.local[field] != value:
                self.say(f"{name}: CONFIG says {field} = {self.local[field]} of the speaker, and its OPEN says {value}")
        if session.width() == 2:
            self.say(f"{name}: a session with AS numbers of two bytes, which isn't judged")

    def asked(self, session, time, message):
        """A ROUTE-REFRESH: a request, a filter, or a mark of the neighbor's own refresh (RFC 7313)."""
        name = session.peer["name"]
        if len(message) > 23:
            return self.entries.append(Entry(time, name, f"orf {name} {self.filter_text(name, message)}"))
        if message[21] == 1:
            self.stale[name] = {(prefix, key) for prefix, paths in self.routes.items() for key in paths if key[0] == name}
        elif message[21] == 2:
            for prefix, key in sorted(self.stale.pop(name, ()), key=str):
                self.gone(time, prefix, key)
        elif session.peer.get("family") == "ipv6" or message[19:23] != b"\0\1\0\1":
            self.entries.append(Entry(time, name, f"refresh {name}"))
        else:
            self.entries.append(Entry(time, name, f"receive {name} {message.hex()}"))

    def filter_text(self, name, message):
        """FRR removes all entries by an action that RFC 5291 doesn't have; the same is meant by 80."""
        if len(message) == 28 and message[-1] & 0xC0 == 0xC0:
            self.say(f"{name}: a filter that removes all by c0, which is written as 80")
            message = message[:-1] + b"\x80"
        return message.hex()

    def updated(self, session, time, message):
        peer, name = session.peer, session.peer["name"]
        family = 6 if peer.get("family") == "ipv6" else 4
        identified = has_identifiers(session.opens["neighbor"], session.opens["speaker"], family)
        try:
            update = Update(message, family, identified, session.width())
        except (Unreadable, IndexError, ValueError) as why:
            return self.say(f"{name}: an UPDATE that can't be read, and is passed over: {why}")
        for kind in update.unsaid:
            self.unsaid[f"an attribute of type {kind}, which isn't compared"] += 1
        if update.withdrawn or update.announced:
            self.senders.add(name)
        for prefix, identifier in update.withdrawn:
            self.gone(time, prefix, (name, identifier))
        if update.announced:
            self.announced(time, self.neighbors[name], update)

    # ---- routes

    def announced(self, time, neighbor, update):
        is_refused = is_loop(update.route, neighbor, self.local)
        route = taken(update.route, neighbor)
        if self.kind == "frr" and not self.strict:
            route = with_med_zero(route, neighbor)
        for prefix, identifier in update.announced:
            key = neighbor.name, identifier
            if is_refused:
                self.gone(time, prefix, key)
                continue
            self.stale[neighbor.name].discard((prefix, key))
            path = self.routes[prefix].setdefault(key, Path(neighbor, route, identifier))
            path.route = route
            self.changed(time, prefix)

    def gone(self, time, prefix, key):
        if self.routes[prefix].pop(key, None) is not None:
            self.changed(time, prefix)

    def changed(self, time, prefix):
        """The prefix has other paths: the best first, and then those of longer standing."""
        if self.kind == "events":
            return
        paths = list(self.routes[prefix].values())
        before = self.bests.pop(prefix, None)
        if paths:
            first = self.bests[prefix] = best(paths, before, STEPS[self.kind])
            paths = [first] + [path for path in paths if path is not first]
        kept = [(path, path.route) for path in paths]
        while len(kept) > MOST_PATHS or sum(20 + len(path_words(*told)) for told in kept) > MOST_BYTES - 60:
            kept.pop()
            self.unsaid["a path past the bounds of a line"] += 1
        self.entries.append(Entry(time, prefix=prefix, paths=kept))

    def take_line(self, time, line):
        """A line of what happened beside the capture."""
        words = line.split()
        if self.kind == "events" or words[0] not in ("paths", "withdraw"):
            about = words[1] if words[0] in ("up", "down", "refresh", "receive", "orf") else None
            return self.entries.append(Entry(time, about, line))
        prefix, own = network(words[1]), self.routes[network(words[1])]
        for key in [key for key in own if key[0] is None]:
            del own[key]
        for number, text in enumerate(" ".join(words[2:]).split("|") if words[0] == "paths" else []):
            own[None, number] = Path(None, OwnRoute(text))
        self.changed(time, prefix)

    def say(self, text):
        if text not in self.told:
            self.told.append(text)


class OwnRoute:
    """A route of the speaker's own, by its words."""

    def __init__(self, text):
        self.said = [word for word in text.split() if not word.startswith(("id=", "from="))]

    def words(self):
        return self.said

    def shown(self):
        return ORIGINS.index(next(word[7:] for word in self.said if word.startswith("origin="))), ()


def network(text):
    return ipaddress.ip_network(text, strict=False)
