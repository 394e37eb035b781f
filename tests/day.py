#!/usr/bin/env python3
"""day.py FOLDER [PART]: a day of eight peers, and what it leaves, worked out plainly.

Writes FOLDER/config.toml and FOLDER/events: 20,000 prefixes, 5,000 further lines with two resets, a policy change,
requests, filters, changes of a list, lines that are refused, and syncs. And what a run over them must end with:
FOLDER/report, where * stands for the number of messages in a mark, FOLDER/sessions, a line for each peer that is up
with its last session and the options of `check`, and FOLDER/rows/PEER.SESSION, what `check` prints of that session
but for the number of messages. The seed is fixed: each run writes the same. With PART the day is shorter: a PARTth of the
prefixes and of the further lines.

The model is that of tests/model.py.
"""

import os
import sys

from model import NAMES, Dice, Entry, Templates, config_text, configured, event_line, prefix, request_hex


def places():
    """20,000 prefixes: 17,000 of IPv4, of several lengths, and 3,000 of IPv6."""
    found = [(4, 0, 0)]
    found += [prefix("10.%d.0.0/16" % i) for i in range(256)]
    found += [prefix("10.%d.%d.0/24" % (i % 128, i // 128 * 3 % 256)) for i in range(128 * 80)]
    found += [prefix("172.16.%d.%d/%d" % (i % 256, i // 256 * 16, 28)) for i in range(3500)]
    i = 0
    while len(found) < 17000:
        found.append(prefix("192.168.%d.%d/32" % (i // 256, i % 256)))
        i += 1
    found += [prefix("2001:db8:%x::/48" % i) for i in range(2000)]
    found += [prefix("2001:db8:1000:%x::/64" % i) for i in range(999)]
    found.append((6, 0, 0))
    assert len(set(found)) == 20000
    return found


class Day:
    def __init__(self):
        self.world = configured()
        self.lines = []
        self.report = []
        self.accepted = self.refused = 0

    def line(self, text, refusal=None):
        self.lines.append(text)
        if refusal is not None:
            self.refused += 1
            self.report.append("line %d refused %s" % (len(self.lines), refusal))

    def event(self, *event):
        number = self.world.verdict(event)
        self.line(event_line(event), None if number is None else "%d %s" % (number, NAMES[number]))
        if number is not None:
            return
        self.world.take(event)
        self.accepted += 1
        if event[0] in ("refresh", "receive") or event[0] == "orf" and event[2]:
            peer = self.world.peers[event[1]]
            self.report.append("refresh %d %s %d *" % (self.world.version, peer.name, peer.sessions))

    def sync(self):
        self.line("sync")
        for peer in self.world.peers.values():
            if peer.is_up:
                self.report.append("sync %d %s %d *" % (self.world.version, peer.name, peer.sessions))


def lived(dice, part):
    day = Day()
    world = day.world
    templates = Templates(dice)
    known = places()[::part]

    def put():
        place = dice.one_of(known)
        day.event("paths", place, templates.paths(place[0]))

    def slip(k):
        """A line that is refused: of the world, or as a line."""
        texts = [("up nobody", "1 unknown-peer"), ("up ext1 ext2", "22 bad-words"), ("down Ext1", "25 bad-name"),
                 ("withdraw 10.0.0.0/33", "23 bad-prefix"), ("paths 10.0.0.0/8 id=0", "24 bad-attribute"),
                 ("receive six " + request_hex().replace("0001" + "00" + "01", "0002" + "00" + "01"), "26 bad-message 4"),
                 ("announce 10.0.0.0/8", "21 bad-verb"), ("policy ext1 nowhere", "5 unknown-policy"),
                 ("list nowhere 5:permit:10.0.0.0/8", "6 unknown-list"), ("x" * 4097, "20 line-too-long")]
        day.line(*texts[k % len(texts)])

    # Some are up from the start, and the others come when the table is there.
    for name in ("ext1", "client1", "core", "six"):
        day.event("up", name)
    order = list(range(len(known)))
    for i in range(len(order) - 1, 0, -1):
        j = dice.below(i + 1)
        order[i], order[j] = order[j], order[i]
    for i in order:
        day.event("paths", known[i], templates.paths(known[i][0]))
    for name in ("ext2", "ext3", "ext4", "client2"):
        day.event("up", name)
    day.sync()

    begun = len(day.lines)
    special = {
        300: lambda: day.event("refresh", "ext1"),
        600: lambda: day.event("orf", "ext2", True, [("add", Entry(10, True, prefix("10.0.0.0/8"), le=24)), ("add", Entry(5, False, prefix("10.3.0.0/16"), le=32))]),
        700: lambda: day.event("orf", "ext2", False, [("add", Entry(20, True, prefix("172.16.0.0/12"), ge=28)), ("remove", Entry(5, True, (4, 0, 0)))]),
        701: lambda: day.event("orf", "ext1", True, [("clear", None)]),
        900: lambda: day.event("down", "client1"),
        1000: lambda: day.event("up", "client1"),
        1300: day.sync,
        1500: lambda: day.event("list", "own", [Entry(20, False, prefix("10.0.128.0/17"), ge=20, le=24), Entry(30, True, prefix("10.0.0.0/9"), ge=16),
                                                Entry(35, True, prefix("192.168.0.0/16"), ge=32), Entry(40, True, prefix("172.16.0.0/12"), le=28)]),
        1800: lambda: day.event("receive", "ext3"),
        2100: lambda: day.event("policy", "core", "plain"),
        2400: lambda: day.event("receive", "six"),
        2700: lambda: day.event("down", "ext3"),
        2701: lambda: day.event("up", "ext3"),
        2900: day.sync,
        2901: lambda: day.event("refresh", "ext2"),
        3300: lambda: day.event("refresh", "ext4"),
        3600: lambda: day.event("down", "client2"),
        4400: lambda: day.event("refresh", "core"),
        4700: lambda: day.event("up", "ext1"),
        4999: day.sync,
    }
    at = {}
    for k, happens in special.items():
        k //= part
        while k in at:
            k += 1
        at[k] = happens
    for k in range(5000 // part):
        if k in at:
            at[k]()
        elif dice.once_in(250):
            slip(k)
        elif dice.once_in(200):
            day.line("# quiet")
        elif dice.below(10) < 3:
            day.event("withdraw", dice.one_of(known))
        else:
            put()
    assert len(day.lines) - begun == 5000 // part
    return day


def main():
    folder = sys.argv[1]
    world = configured()
    with open(os.path.join(folder, "config.toml"), "w") as file:
        file.write(config_text(world, coalesce=8))
    day = lived(Dice(20240611), int(sys.argv[2]) if len(sys.argv) > 2 else 1)
    with open(os.path.join(folder, "events"), "w") as file:
        file.write("\n".join(day.lines) + "\n")
    with open(os.path.join(folder, "report"), "w") as file:
        file.write("\n".join(day.report + ["accepted %d refused %d" % (day.accepted, day.refused)]) + "\n")
    os.makedirs(os.path.join(folder, "rows"), exist_ok=True)
    with open(os.path.join(folder, "sessions"), "w") as sessions:
        for peer in day.world.peers.values():
            if not peer.is_up:
                continue
            options = [option for flag, option in (("add_path", "--add-path"), ("extended", "--extended")) if peer.has(flag)]
            options += ["--ipv6"] if peer.family == 6 else []
            sessions.write(" ".join([peer.name, str(peer.sessions)] + options) + "\n")
            rows = day.world.rows(peer)
            with open(os.path.join(folder, "rows", "%s.%d" % (peer.name, peer.sessions)), "w") as file:
                file.write("\n".join(rows + ["eors 1 rows %d rest 0" % len(rows)]) + "\n")


main()
