#!/usr/bin/env python3
"""Makes what `audit` reads of a capture of all of a speaker's sessions: events, a report, and the bytes of each session.

    audit_of_pcap.py CAPTURE CONFIG OUT [--within SECONDS] [--speaker frr|bird|events] [--local ADDRESS] [--also FILE] [--strict] [--senders]

CONFIG has the speaker as [local] and its neighbors as peers: sessions are found by their addresses. What neighbors told becomes best paths by
the speaker's own decision process. FILE has what a capture doesn't show, a time and an event a line: the speaker's own routes, and policies
and lists that change. OUT gets `events`, `report`, `times` and the folder `dir`. It reads pcap and pcapng itself, and needs no other tool.
"""
import argparse
import bisect
import collections
import os
import shlex
import sys
import tomllib

from captures import NoCapture, segments_of
from identifiers import Identifiers
from speakers import Entry, Line, Speaker


class Made:
    """The files of an audit, of what a speaker was seen to do."""

    def __init__(self, speaker, within, with_senders):
        self.speaker, self.within = speaker, within
        self.left_out = set() if with_senders or speaker.kind == "events" else set(speaker.senders)
        judged = [session for session in speaker.sessions if session.peer["name"] not in self.left_out and session.width() == 4]
        self.left_out |= {session.peer["name"] for session in speaker.sessions if session.width() == 2}
        self.sessions = [session for session in judged if session.peer["name"] not in self.left_out]
        self.entries = [entry for entry in speaker.entries if entry.peer is None or entry.peer not in self.left_out]
        if within is not None:
            self.entries += [Entry(speaker.time, session.peer["name"], f"down {session.peer['name']}") for session in self.sessions if session.is_open()]
        self.identifiers = Identifiers(speaker.kind, self.entries, self.sessions)
        self.numbers = self.numbered()

    def numbered(self):
        """Each session by its peer's name and its number."""
        counts = collections.Counter()
        numbers = {}
        for session in self.sessions:
            name = session.peer["name"]
            counts[name] += 1
            numbers[name, counts[name]] = session
        return numbers

    def events(self):
        return text_of(entry.text(self.identifiers) for entry in self.entries)

    def end_of(self, session):
        return self.speaker.time if session.end_at is None else session.end_at

    def marks_of(self, session, told):
        """Where the session, which was told messages at these times, has been given its time for an event: versions, and how many messages.
        Of those behind the same message the last stands for all."""
        times = [entry.time for entry in self.entries]
        first, last = bisect.bisect_left(times, session.up_at), bisect.bisect_right(times, self.end_of(session) - self.within)
        by_message = {bisect.bisect_right(told, times[version - 1] + self.within): version for version in range(first + 1, last + 1)}
        return [(version, handed) for handed, version in by_message.items()]

    def report(self):
        lines = []
        for (name, number), session in self.numbers.items():
            if self.within is not None:
                marks = self.marks_of(session, [time for time, _ in session.messages])
                lines += [f"by {version} {name} {number} {handed}" for version, handed in marks]
            if session.is_lost:
                lines.append(f"lost {name} {number}")
        return lines

    def times(self):
        """When events and messages were, in seconds since the capture began."""
        begin = self.speaker.begin or 0.0
        lines = [f"begin {begin:.6f}"]
        lines += [f"version {version} {entry.time - begin:.6f}" for version, entry in enumerate(self.entries, 1)]
        for (name, number), session in self.numbers.items():
            lines += [f"message {name} {number} {place} {time - begin:.6f}" for place, (time, _) in enumerate(session.messages, 1)]
        return lines

    def write(self, out):
        os.makedirs(os.path.join(out, "dir"), exist_ok=True)
        for name, text in (("events", self.events()), ("report", text_of(self.report())), ("times", text_of(self.times()))):
            with open(os.path.join(out, name), "w", encoding="utf-8") as file:
                file.write(text)
        for (name, number), session in self.numbers.items():
            with open(os.path.join(out, "dir", f"{name}.{number}"), "wb") as file:
                file.write(b"".join(message for _, message in session.messages))

    def told(self):
        """What a person should know of what was made."""
        yield from self.speaker.told
        for name in sorted(self.left_out & self.speaker.senders):
            yield f"{name}: it tells routes itself, so its sessions aren't judged: CONFIG can't say whether its own come back"
        for why, count in sorted(self.speaker.unsaid.items()):
            yield f"{count} times: {why}"
        for (name, number), session in self.numbers.items():
            yield f"session {name} {number}: {len(session.messages)} messages"
        yield f"{len(self.entries)} events"


def text_of(lines):
    return "".join(line + "\n" for line in lines)


def read_also(path):
    """The lines of what a capture doesn't show; a blank one, and one that begins with `#`, says nothing."""
    if path is None:
        return []
    with open(path, encoding="utf-8") as file:
        return [Line(line) for line in file if line.strip() and not line.startswith("#")]


def main():
    parser = argparse.ArgumentParser(description=__doc__.split("\n")[0])
    for name in ("capture", "config", "out"):
        parser.add_argument(name)
    parser.add_argument("--within", type=float, help="seconds in which the speaker has to tell an event")
    parser.add_argument("--speaker", choices=["frr", "bird", "events"], default="frr", help="whose decision process, or that FILE has all events")
    parser.add_argument("--local", help="the speaker's address, in place of each local_address of CONFIG")
    parser.add_argument("--also", help="what the capture doesn't show: TIME EVENT a line")
    parser.add_argument("--strict", action="store_true", help="put up with nothing that no standard allows: FRR's MED 0")
    parser.add_argument("--senders", action="store_true", help="judge neighbors that tell routes too")
    words = parser.parse_args()
    with open(words.config, "rb") as file:
        speaker = Speaker(tomllib.load(file), words.speaker, read_also(words.also), words.local, words.strict)
    try:
        speaker.follow(segments_of(words.capture))
    except NoCapture as why:
        sys.exit(f"{words.capture}: {why}")
    made = Made(speaker, words.within, words.senders)
    made.write(words.out)
    for line in made.told():
        print(line, file=sys.stderr)
    files = [words.config] + [os.path.join(words.out, name) for name in ("events", "report", "dir")]
    print("ug_main audit " + " ".join(map(shlex.quote, files)))


if __name__ == "__main__":
    main()
