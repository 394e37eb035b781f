#!/usr/bin/env python3
"""auditor.py audit [--explain] [--unordered] CONFIG EVENTS REPORT DIR: a plain, slow auditor.

It prints what `audit` has to print, and ends with that status, as docs/AUDIT.md says. It holds a whole table for each version, and asks
each rule of each key, of each message and of each mark. It takes a configuration that is accepted. The model is that of
tests/model.py; nothing of it is taken from the program.
"""

import os
import sys

from heard import CUT, MALFORMED, Heard
from model import NAMES, Attributes, Refused, attribute_words, lines_of, prefix_text, read_config, read_line

MOST_CONFIG, MOST_BYTES, MOST_LINES = 1048576, 1073741824, 2000000
UNREAD, STUCK, AMISS, OFF, LATE = 1, 2, 3, 4, 5
MOST_MAY = 4


class Ended(Exception):
    """The audit ends with this status, and says this."""

    def __init__(self, status, text):
        super().__init__(text)
        self.status = status
        self.text = "status %d %s\n" % (status, text)


# ---- the worlds that the events lead through

class Worlds:
    """Each peer's private table by version, and in which session the peer was then: 0 where it was down."""

    def __init__(self, config, events, unordered=False):
        self.last = world = read_config(config)
        self.alike = without_order if unordered else as_it_is
        self.refused = []
        self.known = {}
        self.lists = 0
        self.tables = {name: [] for name in world.peers}
        self.session = {name: [] for name in world.peers}
        self.remember()
        for place, line in enumerate(lines_of(events), 1):
            try:
                event = read_line(line)
            except Refused as refusal:
                self.refuse(place, refusal.number, refusal.inner)
                continue
            if event is None or event[0] == "sync":
                continue
            number = world.verdict(event)
            if number is not None:
                self.refuse(place, number, None)
                continue
            world.take(event)
            self.lists += event[0] == "list"
            self.remember()

    def refuse(self, place, number, inner):
        self.refused.append("line %d refused %d %s%s" % (place, number, NAMES[number], "" if inner is None else " %d" % inner))

    def remember(self):
        for peer in self.last.peers.values():
            self.session[peer.name].append(peer.sessions if peer.is_up else 0)
            self.tables[peer.name].append(self.table(peer))

    def table(self, peer):
        """The same as World.table, with each path worked out once, while nothing changes that it depends on."""
        table = {}
        if peer.is_up:
            for place in self.last.routes:
                for identifier, path in self.last.keyed(peer, place):
                    known = (peer.name, peer.policy, self.lists, id(peer.filter), place, id(path))
                    if known not in self.known:
                        # the path and the filter stay with it, so that no other ones get their addresses
                        self.known[known] = (self.alike(value_of(self.last.told(peer, place, path))), path, peer.filter)
                    value = self.known[known][0]
                    if value is not None:
                        table[place, identifier] = value
        return table

    def past(self, name, n):
        """What the tables of a session have to follow: the empty one, and then that of each version of the session."""
        return [{}] + [table for table, session in zip(self.tables[name], self.session[name]) if session == n]

    def place(self, name, n, version):
        """How many versions of the session aren't later than this one."""
        return self.session[name][:version + 1].count(n)


def value_of(a):
    if a is None:
        return None
    return (a.origin, tuple((is_set, tuple(numbers)) for is_set, numbers in a.segments), a.next_hop, a.med, a.local_pref, a.atomic,
            a.aggregator, tuple(a.communities), a.originator, tuple(a.clusters))


def as_it_is(value):
    return value


def without_order(value):
    """What is a set stands in order, and each part once."""
    if value is None:
        return None
    origin, segments, next_hop, med, local_pref, atomic, aggregator, communities, originator, clusters = value
    segments = tuple((is_set, ascending(numbers) if is_set else numbers) for is_set, numbers in segments)
    return (origin, segments, next_hop, med, local_pref, atomic, aggregator, ascending(communities), originator, clusters)


def ascending(numbers):
    return tuple(sorted(set(numbers)))


# ---- the report

class Unclear(Exception):
    """A line of REPORT isn't of its form."""


def written_number(word):
    if not word.isdigit() or len(word) > 20 or str(int(word)).encode() != word or int(word) >= 2**64:
        raise Unclear
    return int(word)


class Marks:
    """Of a session: versions by message for `sync` and `by`, and whether it was lost."""

    def __init__(self):
        self.exact, self.least, self.is_lost = {}, {}, False


class Report:
    def __init__(self, worlds, report):
        self.worlds = worlds
        self.sessions = {(peer.name, n): Marks() for peer in worlds.last.peers.values() for n in range(1, peer.sessions + 1)}
        lines = lines_of(report)
        for place, line in enumerate(lines[:MOST_LINES], 1):
            try:
                self.take(line.split(b" "))
            except Unclear:
                raise Ended(11, "report %d" % place) from None
        if len(lines) > MOST_LINES:
            raise Ended(7, "too-long")

    def take(self, words):
        if words[0] in (b"sync", b"by"):
            if len(words) != 5:
                raise Unclear
            version, handed = written_number(words[1]), written_number(words[4])
            marks = self.of(words[2], words[3])
            if version > self.worlds.last.version:
                raise Unclear
            (marks.exact if words[0] == b"sync" else marks.least).setdefault(handed, set()).add(version)
        elif words[0] == b"lost":
            if len(words) != 3:
                raise Unclear
            self.of(words[1], words[2]).is_lost = True

    def of(self, name, session):
        marks = self.sessions.get((name.decode("latin-1"), written_number(session)))
        if marks is None:
            raise Unclear
        return marks


# ---- a session, judged

def differing(one, other):
    return [key for key in set(one) | set(other) if one.get(key) != other.get(key)]


class Breach:
    """`key` is () or (key,); `might` is what it might have been, as places and values."""

    def __init__(self, message, kind, key=(), said=None, might=()):
        self.message, self.kind, self.key, self.said, self.might = message, kind, key, said, might

    def order(self):
        return self.message, self.kind, self.key

    def words(self, name, n):
        return "%s %d %d %d %s" % (name, n, self.kind, self.message, key_text(self.key[0]) if self.key else "-")


class Judged:
    """A session, its breaches in order, and the moves of its routes."""

    def __init__(self, worlds, name, n, data, marks):
        self.name, self.n, self.marks = name, n, marks
        self.worlds, self.past = worlds, worlds.past(name, n)
        peer = worlds.last.peers[name]
        self.heard = Heard(peer, data)
        self.count = len(self.heard.messages)
        self.tables, self.touched = self.heard.tables(worlds.alike)
        named = self.heard.named()
        self.keys = named.union(*self.past)
        self.values = {key: [table.get(key) for table in self.past] for key in self.keys}
        self.places = dict.fromkeys(self.keys, 0)
        self.moves = {key: [] for key in sorted(named)}
        self.aside = set()
        self.breaches = []
        for message in range(self.count + 1):
            self.take(message)
            self.mark(message)
        self.end(peer.is_up and peer.sessions == n and not marks.is_lost)
        self.breaches.sort(key=Breach.order)

    def first_place(self, key, least, value):
        """The first place from there on at which the route has the value."""
        values = self.values[key]
        for place in range(least, len(values)):
            if values[place] == value:
                return place
        return None

    def might(self, key, least):
        """The values from a place on, each once, at its first place."""
        found = {}
        for place, value in enumerate(self.values[key][least:], least):
            found.setdefault(value, place)
        return [(place, value) for value, place in found.items()][:MOST_MAY]

    def breach(self, message, kind, key, might):
        self.breaches.append(Breach(message, kind, (key,), self.tables[message].get(key), might))
        self.aside.add(key)

    def take(self, message):
        """Each route that the message names or changes goes on, or stays where it was."""
        for key in self.touched[message]:
            self.aside.discard(key)
            place = self.first_place(key, self.places[key], self.tables[message].get(key))
            if place is None:
                self.breach(message, STUCK, key, self.might(key, self.places[key]))
            elif place != self.places[key]:
                self.places[key] = place
                if key in self.moves:
                    self.moves[key].append((message, place))

    def mark(self, message):
        """The marks behind the message. They pass over the routes that were set aside."""
        for version in sorted(self.marks.exact.get(message, ())):
            due, place = self.worlds.tables[self.name][version], self.worlds.place(self.name, self.n, version)
            for key in differing(self.tables[message], due):
                if key not in self.aside:
                    self.breach(message, AMISS, key, [(place, due.get(key))])
        for version in sorted(self.marks.least.get(message, ())):
            self.bring(message, self.worlds.place(self.name, self.n, version))

    def bring(self, message, least):
        """No route is staler than this place."""
        for key in self.keys - self.aside:
            at_least = max(least, self.places[key])
            place = self.first_place(key, at_least, self.tables[message].get(key))
            if place is None:
                self.breach(message, LATE, key, self.might(key, at_least))
            else:
                self.places[key] = place

    def end(self, is_asked):
        count = self.count
        for kind, marks in ((AMISS, self.marks.exact), (LATE, self.marks.least)):
            if max(marks, default=0) > count and not self.marks.is_lost:
                self.breaches.append(Breach(count, kind))
        if is_asked:
            for key in differing(self.tables[count], self.past[-1]):
                self.breach(count, OFF, key, [(len(self.past) - 1, self.past[-1].get(key))])
        if self.heard.ending == MALFORMED or self.heard.ending == CUT and not self.marks.is_lost:
            self.breaches.append(Breach(count + 1, UNREAD))

    def certificate(self):
        yield "session %s %d messages %d" % (self.name, self.n, self.count)
        for key, moves in self.moves.items():
            yield " ".join(["climb", key_text(key)] + ["%d@%d" % move for move in moves])

    def explained(self):
        begins = [0] + self.heard.begins + [self.heard.end]
        for breach in self.breaches:
            yield "breach %s offset %d" % (breach.words(self.name, self.n), begins[breach.message])
            for key in breach.key:
                yield "  said " + row_text(key, breach.said)
                for place, value in breach.might:
                    yield "  may %d %s" % (place, row_text(key, value))
        if self.heard.unknown():
            yield "uncompared %s %d %d" % (self.name, self.n, self.heard.unknown())


def key_text(key):
    return "%s id=%d" % (prefix_text(key[0]), key[1])


def row_text(key, value):
    return "-" if value is None else " ".join([key_text(key)] + attribute_words(Attributes(*value)))


# ---- the audit

def sessions_judged(worlds, report, held):
    """Each session in order. `held` gives the bytes of a session's file, or None."""
    for (name, n), marks in report.sessions.items():
        data = held("%s.%d" % (name, n))
        if data is None:
            raise Ended(3, "read")
        yield Judged(worlds, name, n, within(data, MOST_BYTES), marks)


def first_told(worlds, report, held):
    """The first breach alone, or the certificate."""
    certificate = []
    for session in sessions_judged(worlds, report, held):
        if session.breaches:
            raise Ended(10, "refuted " + session.breaches[0].words(session.name, session.n))
        certificate += session.certificate()
    return certificate


def all_told(worlds, report, held, told):
    """Every breach and its reasons, put behind what was told, and then the certificate."""
    sessions, certificate, breaches, unheard = sessions_judged(worlds, report, held), [], 0, 0
    told += worlds.refused + ["accepted %d refused %d" % (worlds.last.version, len(worlds.refused))]
    for peer in worlds.last.peers.values():
        for _ in range(peer.sessions):
            session = next(sessions)
            breaches += len(session.breaches)
            told += session.explained()
            certificate += session.certificate()
        if held("%s.%d" % (peer.name, peer.sessions + 1)) is not None:
            unheard += 1
            told.append("unheard %s %d" % (peer.name, peer.sessions + 1))
    told += certificate
    if breaches or worlds.refused or unheard:
        raise Ended(10, "breaches %d refused %d unheard %d" % (breaches, len(worlds.refused), unheard))


def judged(worlds, report, held, explain=False):
    """What is told of these files: a status and a text."""
    told = []
    try:
        marks = Report(worlds, report)
        if explain:
            all_told(worlds, marks, held, told)
        else:
            told = first_told(worlds, marks, held)
    except Ended as end:
        return end.status, text_of(told) + end.text
    return 0, text_of(told)


def text_of(lines):
    return "".join(line + "\n" for line in lines)


def within(data, most):
    if len(data) > most:
        raise Ended(7, "too-long")
    return data


def file_in(path):
    """The bytes of a file, or None where it can't be read."""
    try:
        with open(path, "rb") as file:
            return file.read()
    except OSError:
        return None


def read_file(path):
    data = file_in(path)
    if data is None:
        raise Ended(3, "read")
    return data


def audit(config, events, report, folder, explain=False, unordered=False):
    try:
        text = within(read_file(config), MOST_CONFIG)
        lines = within(read_file(events), MOST_BYTES)
        if len(lines_of(lines)) > MOST_LINES:
            raise Ended(7, "too-long")
        worlds = Worlds(text.decode("utf-8"), lines, unordered)
        said = read_file(report)
    except Ended as end:
        return end.status, end.text
    return judged(worlds, said, lambda name: file_in(os.path.join(folder, name)), explain)


def command(words):
    """What the words of the command line come to."""
    options = {"--explain": False, "--unordered": False}
    files = []
    while words:
        word = words.pop(0)
        if word == "--":
            files += words
            break
        if len(word) < 2 or not word.startswith("-"):
            files.append(word)
        elif options.get(word) is False:
            options[word] = True
        else:
            return 1, "status 1 usage\n"
    if len(files) != 5 or files[0] != "audit":
        return 1, "status 1 usage\n"
    return audit(*files[1:], explain=options["--explain"], unordered=options["--unordered"])


if __name__ == "__main__":
    status, told = command(sys.argv[1:])
    sys.stdout.write(told)
    sys.exit(status)
