#!/usr/bin/env python3
"""Draws a run as one page of HTML that needs no network: groups, sessions over versions, marks, losses, messages and bytes.

    ug_main groups CONFIG > GROUPS
    ug_main run CONFIG EVENTS DIR > REPORT
    page_of_run.py CONFIG EVENTS REPORT DIR [--groups GROUPS] > PAGE

A version is how many events were accepted so far. Of a run that ended early the page goes as far as the report tells.
"""
import argparse
import html
import os
import sys
import tomllib

from json_of import object_of
from messages import ROUTE_REFRESH, kind_of, messages_of

WIDTH, LEFT, RIGHT, ROW, TOP = 1000, 170, 30, 26, 34
STYLE = """
body { font: 15px/1.45 system-ui, sans-serif; margin: 2em auto; max-width: 66em; padding: 0 1em; color: #1d2733; }
.wide { overflow-x: auto; } table { border-collapse: collapse; margin: 0.6em 0 1.6em; } th, td { padding: 0.2em 0.8em; text-align: left; border-bottom: 1px solid #d9dee4; }
td.number { text-align: right; font-variant-numeric: tabular-nums; } svg { width: 100%; height: auto; } svg text { font-size: 12px; fill: #1d2733; }
.session { stroke: #2f6db5; stroke-width: 6; } .lost { stroke: #c23b3b; } .sync { stroke: #1d2733; stroke-width: 2; } .refresh { fill: #d48a1c; }
.grid { stroke: #e4e8ec; } .peer { stroke: #eef1f4; } .warning { color: #c23b3b; }
"""


class Session:
    """One session of a peer: when it was up, what was marked in it, and what its file has."""

    def __init__(self, peer, number, begin):
        self.peer, self.number, self.begin, self.end = peer, number, begin, None
        self.lost, self.syncs, self.refreshes = False, [], []
        self.bytes = self.messages = self.refresh_messages = self.rest = None

    def read(self, folder):
        """Counts the messages of its file, where there is one."""
        file = os.path.join(folder, f"{self.peer}.{self.number}")
        if not os.path.isfile(file):
            return
        with open(file, "rb") as session:
            stream = session.read()
        messages, self.rest = messages_of(stream)
        self.bytes, self.messages = len(stream), len(messages)
        self.refresh_messages = sum(kind_of(message) == ROUTE_REFRESH for message in messages)


class Run:
    """What the files of a run tell."""

    def __init__(self, config, events, report):
        self.peers = [peer["name"] for peer in config.get("peer", [])]
        self.sessions, self.version, self.end = {name: [] for name in self.peers}, 0, None
        self.report = [object_of("run", line) for line in report]
        self.refused = [entry for entry in self.report if entry["line"] == "refused"]
        self.follow(events)
        for entry in self.report:
            self.mark(entry)

    def follow(self, events):
        """Counts versions: a line that says an event and wasn't refused makes one."""
        refused = {entry["number"] for entry in self.refused}
        for number, line in enumerate(events, 1):
            words = line.split()
            if not words or words[0].startswith("#") or words[0] == "sync" or number in refused:
                continue
            self.version += 1
            sessions = self.sessions.get(words[1], []) if len(words) > 1 else []
            if words[0] == "up" and words[1] in self.sessions:
                sessions.append(Session(words[1], len(sessions) + 1, self.version))
            elif words[0] == "down" and sessions:
                sessions[-1].end = self.version

    def mark(self, entry):
        if entry["line"] in ("sync", "refresh", "lost"):
            sessions = self.sessions.get(entry["peer"], [])
            if entry["session"] > len(sessions):
                return
            session = sessions[entry["session"] - 1]
            if entry["line"] == "lost":
                session.lost = True
            else:
                (session.syncs if entry["line"] == "sync" else session.refreshes).append((entry["version"], entry["messages"]))
        elif entry["line"] in ("end", "status"):
            self.end = entry

    def all_sessions(self):
        return [session for name in self.peers for session in self.sessions[name]]


def table(heads, rows):
    """Rows of cells; a number stands at the right. Where the screen is narrow the table is moved, and not the page."""
    def cell(value):
        text = "–" if value is None else html.escape(f"{value:,}" if isinstance(value, int) else str(value))
        return f'<td class="number">{text}</td>' if isinstance(value, int) else f"<td>{text}</td>"
    head = "".join(f"<th>{html.escape(name)}</th>" for name in heads)
    body = "".join("<tr>" + "".join(map(cell, row)) + "</tr>" for row in rows)
    return f'<div class="wide"><table><tr>{head}</tr>{body}</table></div>'


def picture(run):
    """Sessions as lines over versions, a row a peer."""
    last = max(run.version, 1)
    height = TOP + ROW * len(run.peers) + 12

    def x(version):
        return LEFT + (WIDTH - LEFT - RIGHT) * version / last

    drawn = []
    for step in range(0, 11):
        version = last * step // 10
        drawn.append(f'<line class="grid" x1="{x(version):.1f}" x2="{x(version):.1f}" y1="{TOP - 8}" y2="{height}"/>'
                     f'<text x="{x(version):.1f}" y="{TOP - 14}" text-anchor="middle">{version}</text>')
    for place, name in enumerate(run.peers):
        y = TOP + ROW * place + ROW / 2
        drawn.append(f'<line class="peer" x1="{LEFT}" x2="{WIDTH - RIGHT}" y1="{y}" y2="{y}"/>'
                     f'<text x="{LEFT - 10}" y="{y + 4}" text-anchor="end">{html.escape(name)}</text>')
        for session in run.sessions[name]:
            drawn.append(drawn_session(session, x, y, last))
    return (f'<svg viewBox="0 0 {WIDTH} {height}" role="img" aria-label="Sessions over versions">' + "".join(drawn) + "</svg>")


def drawn_session(session, x, y, last):
    end = last if session.end is None else session.end
    kind = "session lost" if session.lost else "session"
    about = f"{session.peer} session {session.number}: versions {session.begin} to {end}, {session.messages} messages, {session.bytes} bytes"
    parts = [f'<line class="{kind}" x1="{x(session.begin):.1f}" x2="{max(x(end), x(session.begin) + 3):.1f}" y1="{y}" y2="{y}">'
             f"<title>{html.escape(about)}{', lost' if session.lost else ''}</title></line>"]
    for version, messages in session.syncs:
        parts.append(f'<line class="sync" x1="{x(version):.1f}" x2="{x(version):.1f}" y1="{y - 8}" y2="{y + 8}">'
                     f"<title>sync at version {version}: {messages} messages</title></line>")
    for version, messages in session.refreshes:
        at = x(version)
        parts.append(f'<path class="refresh" d="M{at:.1f} {y - 11} l5 -7 h-10 z">'
                     f"<title>refresh at version {version}, behind {messages} messages</title></path>")
    return "".join(parts)


def groups(entries):
    options = ("kind", "list", "map", "add_path", "next_hop_self", "as_override", "remove_private", "send_community", "extended", "enhanced_refresh")

    def said(value):
        return {True: "yes", False: "no", None: "–"}.get(value, str(value))
    return table(["group", *(name.replace("_", " ") for name in options), "peers"],
                 [[entry["group"], *(said(entry.get(name)) for name in options), ", ".join(entry["peers"])] for entry in entries])


def syncs(run):
    """A row a version at which there was a `sync`: how many messages each peer had been sent by then."""
    told = {}
    for session in run.all_sessions():
        for version, messages in session.syncs:
            told.setdefault(version, {})[session.peer] = f"{messages} (session {session.number})"
    return table(["version", *run.peers], [[version, *(told[version].get(name) for name in run.peers)] for version in sorted(told)])


def ending(run):
    if run.end is None:
        return '<p class="warning">The report has no last line.</p>'
    said = ", ".join(f"{name} {value}" for name, value in run.end.items() if name != "line")
    return f"<p>The run ended: {html.escape(said)}.</p>"


def page(title, run, listing):
    sessions = [[s.peer, s.number, s.begin, s.end, s.bytes, s.messages, s.refresh_messages, s.rest, "lost" if s.lost else ""] for s in run.all_sessions()]
    refusals = [[entry["number"], entry["code"], entry["name"]] for entry in run.refused]
    parts = [f"<h1>{html.escape(title)}</h1>", ending(run)]
    if listing:
        parts += ["<h2>Groups</h2>", groups(listing)]
    parts += ["<h2>Sessions over versions</h2>",
              "<p>A blue line is a session, a red one a session that was lost; black strokes are marks of sync, triangles requests for all routes.</p>", picture(run),
              "<h2>Sessions</h2>", table(["peer", "session", "from version", "to version", "bytes", "messages", "of them marks of refresh", "rest", ""], sessions),
              "<h2>What each sync told</h2>", "<p>How many messages had been sent.</p>", syncs(run)]
    if refusals:
        parts += ["<h2>Refused lines</h2>", table(["line", "number", "name"], refusals)]
    return document(title, STYLE, parts)


def document(title, style, parts):
    return (f'<!DOCTYPE html><html lang="en"><head><meta charset="utf-8"><meta name="viewport" content="width=device-width, initial-scale=1">'
            f"<title>{html.escape(title)}</title><style>{style}</style></head><body>" + "".join(parts) + "</body></html>")


def lines_of(file):
    with open(file, encoding="utf-8", errors="replace") as text:
        return text.read().splitlines()


def main():
    parser = argparse.ArgumentParser(description=__doc__.split("\n")[0])
    for name in ("config", "events", "report", "folder"):
        parser.add_argument(name)
    parser.add_argument("--groups", help="what `groups` printed of the configuration")
    words = parser.parse_args()
    with open(words.config, "rb") as config:
        run = Run(tomllib.load(config), lines_of(words.events), lines_of(words.report))
    for session in run.all_sessions():
        session.read(words.folder)
    listing = [object_of("groups", line) for line in lines_of(words.groups)] if words.groups else []
    sys.stdout.write(page(os.path.basename(words.events), run, listing) + "\n")


if __name__ == "__main__":
    main()
