#!/usr/bin/env python3
"""Judges the captures of examples/audit, as they are and with planted faults.

    captures.py kept DAY              the files that are kept are what the capture makes, and the verdict is what an audit of them says
    captures.py segments DAY ROUNDS   the same from pcapng, with packets exchanged, repeated and sent again in other pieces; and without one
    captures.py planted DAY COUNT     so many UPDATEs dropped, withdrawals dropped, withdrawals late and next hops wrong, in sessions that are right

DAY is frr-8.4.4 or bird-2.0.12. The audits are those of the plain, slow auditor. The last line says how many passed and failed.
"""

import bisect
import os
import sys
import tempfile
import time

HERE = os.path.dirname(os.path.abspath(__file__))
sys.path.insert(0, os.path.join(HERE, "../bridges"))

import tomllib

from audit_of_pcap import Made, read_also, text_of
from auditor import Judged, Marks, Worlds, judged
from captures import packets_of, segments_of
from heard import Heard, Update
from model import Dice
from speakers import Speaker

DAYS = {"frr-8.4.4": ("frr", 3.0), "bird-2.0.12": ("bird", 1.0)}
LATE = 3.0


class Tests:
    def __init__(self):
        self.passed = self.failed = 0

    def check(self, name, holds, what=""):
        self.passed += bool(holds)
        self.failed += not holds
        if not holds:
            print(f"{name}: {what}")

    def end(self):
        print("%d passed, %d failed" % (self.passed, self.failed))
        return self.failed > 0


class Day:
    """A capture that is kept, and what is made of it."""

    def __init__(self, name):
        self.name, self.folder = name, os.path.join(HERE, "../examples/audit", name)
        self.speaker, self.within = DAYS[name]

    def path(self, name):
        return os.path.join(self.folder, name)

    def kept(self, name):
        with open(self.path(name), encoding="utf-8") as file:
            return file.read()

    def made(self, segments=None, strict=False):
        speaker = Speaker(tomllib.loads(self.kept("config.toml")), self.speaker, read_also(self.path("also")), strict=strict)
        speaker.follow(segments_of(self.path("capture.pcap")) if segments is None else segments)
        return Made(speaker, self.within, False)

    def worlds(self, made):
        return Worlds(self.kept("config.toml"), made.events().encode(), unordered=True)

    def verdict(self, made):
        """What `audit --explain --unordered` says of what was made."""
        files = {f"{name}.{number}": bytes_of(session) for (name, number), session in made.numbers.items()}
        return judged(self.worlds(made), text_of(made.report()).encode(), files.get, explain=True)[1]


def bytes_of(session):
    return b"".join(message for _, message in session.messages)


# ---- what is kept

def try_kept(tests, day):
    made = day.made()
    tests.check("events", made.events() == day.kept("events"), "the capture makes other ones")
    tests.check("report", text_of(made.report()) == day.kept("report"), "the capture makes another one")
    tests.check("verdict", day.verdict(made) == day.kept("verdict"), "another one")
    if os.path.exists(day.path("verdict-strict")):
        tests.check("strict verdict", day.verdict(day.made(strict=True)) == day.kept("verdict-strict"), "another one")


# ---- the same capture, written otherwise

def try_segments(tests, day, rounds):
    segments = list(segments_of(day.path("capture.pcap")))
    whole = day.made(segments).events(), day.verdict(day.made(segments))
    dice = Dice(7)

    def same(name, other):
        made = day.made(other)
        tests.check(name, (made.events(), day.verdict(made)) == whole, "other events, or another verdict")

    for number in range(rounds):
        exchanged = list(segments)
        for _ in range(60):
            at = dice.below(len(exchanged) - 1)
            one, other = exchanged[at], exchanged[at + 1]
            if is_data_of_one(one, other):
                # each packet keeps the time of its place
                exchanged[at], exchanged[at + 1] = other._replace(time=one.time), one._replace(time=other.time)
        tests.check(f"packets exchanged, {number}", verdict_end(day.verdict(day.made(exchanged))) == verdict_end(whole[1]), "another end")
        repeated = []
        for segment in segments:
            repeated.append(segment)
            if dice.once_in(5):
                repeated.append(segment)
            if segment.data and dice.once_in(5):
                half = len(segment.data) // 2
                repeated.append(segment._replace(number=(segment.number + half) % 2**32, data=segment.data[half:]))
        same(f"packets repeated and sent again in pieces, {number}", repeated)
    with tempfile.TemporaryDirectory() as folder:
        path = os.path.join(folder, "capture.pcapng")
        write_pcapng(day.path("capture.pcap"), path)
        same("as pcapng", segments_of(path))
    without_one(tests, day, segments, dice, rounds)


def is_data_of_one(one, other):
    return one.data and other.data and (one.source, one.source_port, one.target) == (other.source, other.source_port, other.target)


def verdict_end(verdict):
    """How a verdict ends: at a last breach's count, or with a certificate."""
    last = verdict.splitlines()[-1]
    return last if last.startswith("status") else "right"


def write_pcapng(path, to):
    """The same packets in blocks of pcapng."""
    def block(kind, body):
        body += bytes(-len(body) % 4)
        size = (12 + len(body)).to_bytes(4, "little")
        return kind.to_bytes(4, "little") + size + body + size

    with open(path, "rb") as file, open(to, "wb") as out:
        out.write(block(0x0A0D0D0A, bytes.fromhex("4d3c2b1a01000000ffffffffffffffff")))
        is_first = True
        for at, link, data, length in packets_of(file):
            if is_first:
                out.write(block(1, link.to_bytes(2, "little") + bytes(6) + bytes.fromhex("0900010009000000")))
            is_first = False
            units = round(at * 1e6) * 1000
            head = (0, units >> 32, units & 0xFFFFFFFF, len(data), length)
            out.write(block(6, b"".join(word.to_bytes(4, "little") for word in head) + data))


def without_one(tests, day, segments, dice, rounds):
    """One packet isn't in the capture: what stands behind it in its session isn't judged, and nothing else is found."""
    senders = {peer["address"] for peer in tomllib.loads(day.kept("config.toml"))["peer"]}
    breaches = breaches_by_session(day.kept("verdict"))
    for is_neighbor in (False, True):
        for _ in range(rounds):
            places = [at for at, segment in enumerate(segments) if len(segment.data) > 19 and (segment.source in senders) == is_neighbor]
            at = places[len(places) // 10 + dice.below(len(places) * 8 // 10)]
            made = day.made(segments[:at] + segments[at + 1:])
            found = breaches_by_session(day.verdict(made))
            name = f"without packet {at}, of {'a neighbor' if is_neighbor else 'the speaker'}"
            tests.check(name, all(count <= breaches.get(session, 0) for session, count in found.items()), f"finds {found}")
            tests.check(name, any("are missing" in told or "isn't in the capture" in told for told in made.speaker.told), "says nothing of it")


def breaches_by_session(verdict):
    found = {}
    for line in verdict.splitlines():
        if line.startswith("breach "):
            name, number = line.split()[1:3]
            found[name, int(number)] = found.get((name, int(number)), 0) + 1
    return found


# ---- planted faults

class Planted:
    """Faults in the sessions of a day that are right."""

    def __init__(self, day):
        self.day, self.made = day, day.made()
        self.worlds = day.worlds(self.made)
        self.times = [entry.time for entry in self.made.entries]
        wrong = breaches_by_session(day.kept("verdict"))
        self.right = [name for name in self.made.numbers if name not in wrong]

    def marks(self, name, messages):
        """The `by` marks of a session that was told these messages."""
        session = self.made.numbers[name]
        marks = Marks()
        for version, handed in self.made.marks_of(session, [time for time, _ in messages]):
            marks.least.setdefault(handed, set()).add(version)
        return marks

    def judge(self, name, messages):
        return Judged(self.worlds, *name, b"".join(message for _, message in messages), self.marks(name, messages))

    def due(self, name):
        """What the peer should have had, from the session's begin on: times, and tables."""
        session = self.made.numbers[name]
        places = [version for version, number in enumerate(self.worlds.session[name[0]]) if number == name[1]]
        return [max(self.times[version - 1], session.up_at) for version in places], [self.worlds.tables[name[0]][version] for version in places]

    def staleness(self, name, messages, keys):
        """Whether one of these routes was staler than the bound when a mark stands, and whether what it was then is right at no later time."""
        peer = self.worlds.last.peers[name[0]]
        heard = Heard(peer, b"".join(message for _, message in messages))
        tables, _ = heard.tables(self.worlds.alike)
        told = [time for time, _ in messages]
        times, due = self.due(name)
        end = self.made.end_of(self.made.numbers[name])
        is_stale = is_ever = False
        for place, at in enumerate(times):
            moment = at + self.day.within
            if moment > end:
                break
            table = tables[bisect.bisect_right(told, moment)]
            now = bisect.bisect_right(times, moment)
            for key in keys:
                value = table.get(key)
                if all(due[other].get(key) != value for other in range(place, now)):
                    is_stale = True
                    is_ever = is_ever or all(due[other].get(key) != value for other in range(now, len(due)))
        return is_stale, is_ever

    def places(self, wanted):
        """Each message of a right session whose UPDATE is of such a kind: the session, the message's place, and the routes that it names."""
        for name in self.right:
            session = self.made.numbers[name]
            heard = Heard(self.worlds.last.peers[name[0]], bytes_of(session))
            for place, message in enumerate(heard.messages):
                if isinstance(message, Update) and wanted(message):
                    yield name, place, message.named()

    def try_kind(self, tests, title, count, wanted, change):
        """So many messages of a kind are changed, each alone."""
        dice, places = Dice(len(title)), list(self.places(wanted))
        found = short = returns = 0
        for _ in range(count):
            name, place, keys = dice.one_of(places)
            messages = change(list(self.made.numbers[name].messages), place)
            has_breach = bool(self.judge(name, messages).breaches)
            is_stale, is_ever = self.staleness(name, messages, keys)
            found += has_breach
            short += not has_breach and not is_stale
            returns += not has_breach and is_stale and not is_ever
            tests.check(title, has_breach or not is_ever, f"{name} message {place + 1} isn't found")
        print(f"{self.day.name}, {title}: {found} of {count} are found; {short} stood no longer than {self.day.within:g} s, "
              f"{returns} were such as the route is later on")


def dropped(messages, place):
    return messages[:place] + messages[place + 1:]


def late(messages, place):
    time, message = messages[place]
    rest = dropped(messages, place)
    at = bisect.bisect_right([when for when, _ in rest], time + LATE)
    return rest[:at] + [(time + LATE, message)] + rest[at:]


def with_wrong_next_hop(messages, place):
    """The last byte of NEXT_HOP is another one."""
    time, message = messages[place]
    at = message.index(b"\x40\x03\x04") + 6
    return messages[:place] + [(time, message[:at] + bytes([message[at] ^ 0x80]) + message[at + 1:])] + messages[place + 1:]


def try_planted(tests, day, count):
    planted = Planted(day)
    for name in planted.right:
        session = planted.made.numbers[name]
        tests.check(f"{name} as it is", not planted.judge(name, session.messages).breaches, "isn't right")
        named = Heard(planted.worlds.last.peers[name[0]], bytes_of(session)).named()
        tests.check(f"{name} as it is", not planted.staleness(name, session.messages, named)[0], "is stale")

    def is_withdrawal(update):
        return bool(update.withdrawn) and not update.announced

    planted.try_kind(tests, "dropped UPDATEs", count, lambda update: update.named(), dropped)
    planted.try_kind(tests, "dropped withdrawals", count, is_withdrawal, dropped)
    planted.try_kind(tests, f"withdrawals late by {LATE:g} s", count, is_withdrawal, late)
    dice, places, found = Dice(3), list(planted.places(lambda update: update.announced)), 0
    for _ in range(count):
        name, place, _ = dice.one_of(places)
        messages = with_wrong_next_hop(list(planted.made.numbers[name].messages), place)
        found += bool(planted.judge(name, messages).breaches)
    tests.check("wrong next hops", found == count, f"{found} of {count} are found")
    print(f"{day.name}, wrong next hops: {found} of {count} are found")


def main():
    tests, (what, name) = Tests(), sys.argv[1:3]
    begin = time.time()
    day = Day(name)
    if what == "kept":
        try_kept(tests, day)
    elif what == "segments":
        try_segments(tests, day, int(sys.argv[3]))
    else:
        try_planted(tests, day, int(sys.argv[3]))
    print(f"{name}, {what}: {time.time() - begin:.1f} s", file=sys.stderr)
    return tests.end()


if __name__ == "__main__":
    sys.exit(main())
