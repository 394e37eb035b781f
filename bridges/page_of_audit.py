#!/usr/bin/env python3
"""Draws a verdict over the time of a capture as one page of HTML that needs no network: how many routes of each session were stale, and for how
long; marks; breaches with their reasons; and the slowest routes.

    audit_of_pcap.py CAPTURE CONFIG OUT ..
    ug_main audit --explain .. > VERDICT
    page_of_audit.py OUT VERDICT [--title TITLE] > PAGE

A route is stale from the event that it follows until the message that tells it. What a verdict without --explain doesn't have isn't drawn.
"""
import argparse
import collections
import html
import os
import sys

from page_of_run import STYLE, document, lines_of, table

WIDTH, HEIGHT, LEFT, RIGHT, TOP, BOTTOM = 1000, 150, 46, 12, 12, 24
MOST_SLOW, MOST_BREACHES = 25, 200
KINDS = {1: "can't be read", 2: "as it wasn't", 3: "not as a mark says", 4: "not as it should be at the end", 5: "late"}
MORE_STYLE = """
.stale { fill: #9cc3ea; stroke: #2f6db5; stroke-width: 1; } .breach { stroke: #c23b3b; stroke-width: 2; } .mark { stroke: #8a94a0; }
.axis { stroke: #8a94a0; } pre { overflow-x: auto; background: #f5f7f9; padding: 0.6em; font-size: 12px; }
h3 { margin-bottom: 0.2em; } .right { color: #2a7a3f; }
@media (max-width: 40em) { body { margin: 1em auto; } th, td { padding: 0.2em 0.4em; } svg text { font-size: 26px; } }
"""

Move = collections.namedtuple("Move", "route message place")
Breach = collections.namedtuple("Breach", "kind message route reasons")


class Session:
    """A session of the verdict: the moves of its routes, and its breaches."""

    def __init__(self, name, number):
        self.name, self.number, self.messages = name, number, 0
        self.moves, self.breaches, self.uncompared = [], [], 0

    def title(self):
        return f"{self.name}, session {self.number}"


class Verdict:
    def __init__(self, lines):
        self.sessions, self.refused, self.unheard, self.status, self.accepted = {}, [], [], None, None
        here = None
        for line in lines:
            words = line.split()
            if line.startswith("  ") and here is not None and here.breaches:
                here.breaches[-1].reasons.append(line.strip())
            elif words[0] == "breach":
                here = self.session(words[1:3])
                here.breaches.append(Breach(int(words[3]), int(words[4]), " ".join(words[5:-2]), []))
            elif words[0] == "session":
                here = self.session(words[1:3])
                here.messages = int(words[4])
            elif words[0] == "climb":
                here.moves += [Move(" ".join(words[1:3]), *map(int, move.split("@"))) for move in words[3:]]
            elif words[0] == "uncompared":
                self.session(words[1:3]).uncompared = int(words[3])
            elif words[0] == "accepted":
                self.accepted = int(words[1])
            elif words[0] == "unheard":
                self.unheard.append(words[1:3])
            elif words[0] == "line":
                self.refused.append(line)
            elif words[0] == "status":
                self.status = line
                if words[2] == "refuted":
                    self.session(words[3:5]).breaches.append(Breach(int(words[5]), int(words[6]), " ".join(words[7:]), []))

    def session(self, words):
        name, number = words[0], int(words[1])
        return self.sessions.setdefault((name, number), Session(name, number))

    def breaches(self):
        return sum(len(session.breaches) for session in self.sessions.values())


class Times:
    """When events and messages were, and where each session begins and ends among the events."""

    def __init__(self, folder):
        self.versions, self.messages, self.begins, self.ends = {}, {}, {}, {}
        for line in lines_of(os.path.join(folder, "times")):
            words = line.split()
            if words[0] == "version":
                self.versions[int(words[1])] = float(words[2])
            elif words[0] == "message":
                self.messages[words[1], int(words[2]), int(words[3])] = float(words[4])
        counts = collections.Counter()
        for version, line in enumerate(lines_of(os.path.join(folder, "events")), 1):
            words = line.split()
            if words[0] == "up":
                counts[words[1]] += 1
                self.begins[words[1], counts[words[1]]] = version
            elif words[0] == "down":
                self.ends[words[1], counts[words[1]]] = version
        self.marks = collections.defaultdict(list)
        for line in lines_of(os.path.join(folder, "report")):
            words = line.split()
            if words and words[0] in ("sync", "by"):
                self.marks[words[2], int(words[3])].append((words[0], int(words[1]), int(words[4])))

    def last(self):
        return max([*self.versions.values(), *self.messages.values(), 0.001])

    def of_place(self, session, place):
        """When the peer should have had it from: place 1 is where its session began."""
        begin = self.begins[session.name, session.number]
        return self.versions[min(begin + max(place, 1) - 1, len(self.versions))]

    def of_message(self, session, message):
        return self.messages.get((session.name, session.number, message), self.of_place(session, 1))

    def end(self, session):
        version = self.ends.get((session.name, session.number))
        return self.last() if version is None else self.versions[version]


class Stale:
    """A span in which a route was stale; one that never ended ends with the session."""

    def __init__(self, session, route, begin, end, is_breach):
        self.session, self.route, self.begin, self.end, self.is_breach = session, route, begin, end, is_breach

    def seconds(self):
        return max(0.0, self.end - self.begin)


def place_of(reasons):
    """The first place at which the route might have been what it should."""
    return next((int(reason.split()[1]) for reason in reasons if reason.startswith("may ")), None)


def spans_of(session, times):
    """From the event that a move follows until its message; and where a route was late, or never told, from what it should have been."""
    spans = [Stale(session, move.route, times.of_place(session, move.place), times.of_message(session, move.message), False) for move in session.moves]
    for breach in session.breaches:
        place = place_of(breach.reasons)
        if breach.kind in (4, 5) and place is not None:
            later = [times.of_message(session, move.message) for move in session.moves if move.route == breach.route and move.message > breach.message]
            spans.append(Stale(session, breach.route, times.of_place(session, place), min(later, default=times.end(session)), True))
    return spans


def steps_of(spans):
    """How many spans there are at a time: times and numbers, each at its change."""
    changes = collections.Counter()
    for span in spans:
        if span.seconds() > 0:
            changes[span.begin] += 1
            changes[span.end] -= 1
    count, steps = 0, []
    for at in sorted(changes):
        count += changes[at]
        steps.append((at, count))
    return steps


def picture(session, spans, times):
    """How many routes were stale over the time of the capture, with marks below and breaches above."""
    last = times.last()
    steps = steps_of(spans)
    most = max([count for _, count in steps] + [1])

    def x(at):
        return LEFT + (WIDTH - LEFT - RIGHT) * at / last

    def y(count):
        return HEIGHT - BOTTOM - (HEIGHT - TOP - BOTTOM) * count / most

    way, before = [f"M{x(0):.1f} {y(0):.1f}"], 0
    for at, count in steps:
        way.append(f"L{x(at):.1f} {y(before):.1f} L{x(at):.1f} {y(count):.1f}")
        before = count
    way.append(f"L{x(last):.1f} {y(before):.1f} L{x(last):.1f} {y(0):.1f} Z")
    drawn = [f'<line class="axis" x1="{LEFT}" x2="{WIDTH - RIGHT}" y1="{y(0):.1f}" y2="{y(0):.1f}"/>',
             f'<text x="{LEFT - 6}" y="{y(most) + 8:.1f}" text-anchor="end">{most}</text>', f'<text x="{LEFT}" y="{HEIGHT - 4}">0 s</text>',
             f'<text x="{WIDTH - RIGHT}" y="{HEIGHT - 4}" text-anchor="end">{last:.1f} s</text>', f'<path class="stale" d="{" ".join(way)}"/>']
    for word, version, message in times.marks[session.name, session.number]:
        at = x(times.versions.get(version, 0.0))
        drawn.append(f'<line class="mark" x1="{at:.1f}" x2="{at:.1f}" y1="{y(0):.1f}" y2="{y(0) + 5:.1f}">'
                     f"<title>{word} {version}: {message} messages</title></line>")
    for breach in session.breaches:
        at = x(times.of_message(session, breach.message))
        about = f"kind {breach.kind} at message {breach.message}: {breach.route}"
        drawn.append(f'<line class="breach" x1="{at:.1f}" x2="{at:.1f}" y1="0" y2="{y(0):.1f}"><title>{html.escape(about)}</title></line>')
    about = f"{session.title()}: routes that were stale, {most} at most"
    return f'<svg viewBox="0 0 {WIDTH} {HEIGHT}" role="img" aria-label="{html.escape(about)}">' + "".join(drawn) + "</svg>"


def milliseconds(seconds):
    return round(1000 * seconds)


def summary(verdict, spans):
    rows = []
    for name, session in verdict.sessions.items():
        mine = sorted(milliseconds(span.seconds()) for span in spans[name])
        rows.append([session.name, session.number, session.messages, len(session.moves), len(session.breaches), mine[len(mine) // 2] if mine else None,
                     mine[-1] if mine else None, session.uncompared])
    return table(["peer", "session", "messages", "moves of routes", "breaches", "stale: middle, ms", "stale: longest, ms", "attributes not compared"], rows)


def slowest(spans):
    those = sorted((span for each in spans.values() for span in each), key=lambda span: -span.seconds())[:MOST_SLOW]
    return table(["peer", "session", "route", "since, s", "until, s", "ms", ""],
                 [[span.session.name, span.session.number, span.route, f"{span.begin:.3f}", f"{span.end:.3f}", milliseconds(span.seconds()),
                   "breach" if span.is_breach else ""] for span in those])


def breaches_of(session, times):
    shown = session.breaches[:MOST_BREACHES]
    parts = []
    for breach in shown:
        head = f"{times.of_message(session, breach.message):.3f} s, message {breach.message}: {breach.route} is {KINDS[breach.kind]}"
        parts.append(f"<p>{html.escape(head)}</p>" + (f"<pre>{html.escape(chr(10).join(breach.reasons))}</pre>" if breach.reasons else ""))
    if len(session.breaches) > len(shown):
        parts.append(f"<p>And {len(session.breaches) - len(shown):,} more, in the verdict.</p>")
    return "".join(parts)


def page(title, verdict, times):
    spans = {name: spans_of(session, times) for name, session in verdict.sessions.items()}
    breaches = verdict.breaches()
    said = f"Sessions: {len(verdict.sessions):,}. Breaches: {breaches:,}." + (f" Events: {verdict.accepted:,}." if verdict.accepted is not None else "")
    kind = "warning" if verdict.status else "right"
    parts = [f"<h1>{html.escape(title)}</h1>", f'<p class="{kind}">{said} {html.escape(verdict.status or "All is right")}.</p>']
    if verdict.refused or verdict.unheard:
        lines = verdict.refused + [f"session {number} of {name} has a file, and EVENTS doesn't begin it" for name, number in verdict.unheard]
        parts += ["<h2>Not judged</h2>", f"<pre>{html.escape(chr(10).join(lines))}</pre>"]
    parts += ["<h2>Sessions</h2>", summary(verdict, spans), "<h2>Routes that were stale, over time</h2>",
              "<p>A route is stale from the event that it follows until the message that tells it. Strokes below are marks, red ones are breaches.</p>"]
    for name, session in verdict.sessions.items():
        parts += [f"<h3>{html.escape(session.title())}</h3>", picture(session, spans[name], times)]
    if breaches:
        parts.append("<h2>Breaches</h2>")
        for session in verdict.sessions.values():
            if session.breaches:
                parts += [f"<h3>{html.escape(session.title())}: {len(session.breaches):,}</h3>", breaches_of(session, times)]
    parts += ["<h2>The slowest routes</h2>", slowest(spans)]
    return document(title, STYLE + MORE_STYLE, parts)


def main():
    parser = argparse.ArgumentParser(description=__doc__.split("\n")[0])
    parser.add_argument("folder", help="what audit_of_pcap.py made")
    parser.add_argument("verdict", help="what `audit` printed of it")
    parser.add_argument("--title", help="in place of the folder's name")
    words = parser.parse_args()
    title = words.title or os.path.basename(os.path.abspath(words.folder))
    sys.stdout.write(page(title, Verdict(lines_of(words.verdict)), Times(words.folder)) + "\n")


if __name__ == "__main__":
    main()
