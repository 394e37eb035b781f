"""Which path identifiers a speaker gives to paths (RFC 7911): learned from what it says to peers with ADD-PATH.

BIRD numbers the neighbors; FRR numbers each path, from 0 on, and a file of events has no 0.
"""
import collections

from messages import UPDATE, kind_of
from updates import Unreadable, Update

# An announcement stands for a path that was told at most so many seconds before.
SECONDS = 30.0
FIRST_UNSEEN = 1 << 31


def without_first(segments, asn):
    """The AS path before an external peer was told it."""
    if not segments or segments[0][0] or segments[0][1][0] != asn:
        return segments
    rest = segments[0][1][1:]
    return ([(False, rest)] if rest else []) + segments[1:]


def updates_of(session):
    """The UPDATEs that a session of ADD-PATH was told, with their times."""
    for time, message in session.messages:
        if kind_of(message) == UPDATE:
            try:
                yield time, Update(message, 6 if session.peer.get("family") == "ipv6" else 4, True, 4)
            except (Unreadable, IndexError, ValueError):
                continue


def is_of(route, path, told, is_internal):
    """The announcement may be of this path: an internal peer is told its next hop as it is."""
    return route.shown() == told.shown() and (not is_internal or path.is_own() or route.next_hop == told.next_hop)


class Identifiers:
    def __init__(self, speaker, entries, sessions):
        self.told = collections.defaultdict(list)
        for entry in entries:
            for path, route in entry.paths:
                self.told[entry.prefix].append((entry.time, path, route))
        self.votes = collections.defaultdict(collections.Counter)
        self.is_of_paths = speaker == "frr"
        identified = [session for session in sessions if session.peer.get("add_path")]
        internal = [session for session in identified if session.peer["as"] == session.opens["speaker"].asn]
        for session in internal or identified:
            self.learn(session)
        self.is_of_paths = self.is_of_paths and bool(self.votes)
        self.known = {owner: votes.most_common(1)[0][0] for owner, votes in self.votes.items()}
        self.unseen = FIRST_UNSEEN if self.votes else 1

    def owner(self, path):
        """Who has the identifier: the path, or the neighbor that told it."""
        return path if self.is_of_paths else path.neighbor and path.neighbor.name

    def learn(self, session):
        """Each announcement votes for the paths that have its attributes."""
        local = session.opens["speaker"].asn
        is_internal = session.peer["as"] == local
        for time, update in updates_of(session):
            route = update.route
            if update.announced and not is_internal:
                route.segments = without_first(route.segments, local)
            for prefix, identifier in update.announced:
                for when, path, told in self.told[prefix]:
                    if time - SECONDS <= when <= time and is_of(route, path, told, is_internal):
                        self.votes[self.owner(path)][identifier] += 1

    def of(self, paths):
        """The identifiers of a prefix's paths, each another one. One that wasn't seen is one that nobody has."""
        numbers = []
        for path in paths:
            number = self.known.get(self.owner(path), 0)
            if number == 0 or number in numbers:
                number = self.unseen
                self.unseen += 1
                self.known[self.owner(path)] = number
            numbers.append(number)
        return numbers
