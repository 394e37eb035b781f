#!/usr/bin/env python3
"""Turns a table or updates from an MRT file into a file of events.

    bgpdump -m FILE | events_of_mrt.py CONFIG [--from NAME] [--shortest] > EVENTS

CONFIG is the configuration of the run: a route is from the peer whose `address` sent it. Routes of other senders are counted
and left out, or, with --from, are taken as if this peer (or `local`) had sent them. Which path of a prefix is best a dump doesn't
say: paths stand in the order of the dump, or with --shortest by the length of their AS path. What couldn't be said is counted and
told on standard error.
"""
import argparse
import collections
import ipaddress
import sys
import tomllib

MOST_PATHS = 8
MOST_BYTES = 4096
MOST_NUMBERS = 300
MOST_SEGMENTS = 16
LONGEST_SEGMENT = 255
MOST_COMMUNITIES = 128
ORIGINS = {"IGP": "igp", "EGP": "egp", "INCOMPLETE": "incomplete"}
WELL_KNOWN = {"no-export": "65535:65281", "no-advertise": "65535:65282", "local-AS": "65535:65283"}


class Unsaid(Exception):
    """What a line has that the file of events has no word for."""


def numbers_of(text):
    """Decimal AS numbers; one with a point is high half and low half."""
    numbers = []
    for word in text.replace(",", " ").split():
        high, point, low = word.partition(".")
        if not high.isdigit() or (point and not low.isdigit()):
            raise Unsaid("an AS path that isn't numbers and sets")
        numbers.append(str(int(high) * 65536 + int(low)) if point else high)
    return numbers


def as_path(text):
    """The value of as=. Sequences of over 255 numbers are cut, as they are in a message."""
    if any(sign in text for sign in "()[]"):
        raise Unsaid("a confederation in the AS path")
    segments, rest = [], text
    while rest:
        before, brace, behind = rest.partition("{")
        plain = numbers_of(before)
        for at in range(0, len(plain), LONGEST_SEGMENT):
            segments.append(",".join(plain[at:at + LONGEST_SEGMENT]))
        inside, _, rest = behind.partition("}")
        if brace:
            segments.append("{" + ",".join(numbers_of(inside)) + "}")
    if sum(len(numbers_of(segment.strip("{}"))) for segment in segments) > MOST_NUMBERS or len(segments) > MOST_SEGMENTS:
        raise Unsaid("an AS path that is too long")
    return ";".join(segments) or "-"


def communities_of(text):
    communities = [WELL_KNOWN.get(word, word) for word in text.split()]
    for community in communities:
        halves = community.split(":")
        if len(halves) != 2 or not all(half.isdigit() and int(half) < 65536 for half in halves):
            raise Unsaid("a community of another kind")
    if len(communities) > MOST_COMMUNITIES:
        raise Unsaid("too many communities")
    return ",".join(communities)


def path_of(words, prefix, number, sender):
    """The words of one path. A local preference or MED of 0 is what bgpdump prints where there is none."""
    path, origin, next_hop, local_pref, med, communities, atomic, aggregator = (words + [""] * 8)[6:14]
    if origin not in ORIGINS:
        raise Unsaid("an unknown origin")
    if ipaddress.ip_address(next_hop).version != prefix.version:
        raise Unsaid("a next hop of another family")
    said = [f"id={number}", f"from={sender}", f"nh={next_hop}", f"origin={ORIGINS[origin]}", f"as={as_path(path)}"]
    if med not in ("", "0"):
        said.append(f"med={med}")
    if local_pref not in ("", "0"):
        said.append(f"lp={local_pref}")
    if atomic == "AG":
        said.append("atomic")
    if aggregator.strip():
        asn, address = aggregator.split()
        if ipaddress.ip_address(address).version != 4:
            raise Unsaid("an aggregator of IPv6")
        said.append(f"agg={numbers_of(asn)[0]}:{address}")
    if communities.strip():
        said.append(f"comm={communities_of(communities)}")
    return " ".join(said)


def length_of(path):
    """How many numbers its AS path has, a set counting once."""
    value = next(word for word in path.split() if word.startswith("as="))[3:]
    return 0 if value == "-" else sum(1 if part.startswith("{") else part.count(",") + 1 for part in value.split(";"))


class Table:
    """The routes so far: for each prefix the path of each sender. Says an event for each change."""

    def __init__(self, config, sender, shortest, out):
        self.names = {ipaddress.ip_address(peer["address"]): peer["name"] for peer in config.get("peer", [])}
        self.sender, self.shortest, self.out = sender, shortest, out
        self.numbers, self.routes, self.filling = {}, {}, None
        self.unsaid = collections.Counter()
        self.events = 0

    def take(self, line):
        words = line.rstrip("\n").split("|")
        if len(words) < 6 or words[2] not in ("A", "B", "W"):
            return self.leave_out("a line that is no route")
        try:
            prefix = ipaddress.ip_network(words[5], strict=False)
            address = ipaddress.ip_address(words[3])
        except ValueError:
            return self.leave_out("a line that is no route")
        name = self.names.get(address, self.sender)
        if name is None:
            return self.leave_out("a sender that the configuration doesn't have")
        number = self.numbers.setdefault(address, len(self.numbers) + 1)
        if words[2] != "B" or prefix != self.filling:
            self.fill()
        if words[2] == "W":
            return self.withdraw(prefix, address)
        try:
            path = path_of(words, prefix, number, name)
        except Unsaid as why:
            self.leave_out(str(why))
            return self.withdraw(prefix, address) if words[2] == "A" else None
        except ValueError:
            return self.leave_out("a line that is no route")
        self.routes.setdefault(prefix, {})[address] = path
        if words[2] == "B":
            self.filling = prefix
        else:
            self.tell(prefix)

    def withdraw(self, prefix, address):
        """The sender's path goes; the prefix with its last path."""
        if self.routes.get(prefix, {}).pop(address, None) is None:
            return
        if self.routes[prefix]:
            return self.tell(prefix)
        del self.routes[prefix]
        self.say(f"withdraw {prefix}")

    def fill(self):
        """The lines of one prefix of a table are one event."""
        if self.filling is not None:
            self.tell(self.filling)
            self.filling = None

    def tell(self, prefix):
        paths = list(self.routes[prefix].values())
        if self.shortest:
            paths.sort(key=length_of)
        event = f"paths {prefix} "
        kept = paths[:MOST_PATHS]
        while len(event + " | ".join(kept)) > MOST_BYTES:
            kept.pop()
        for _ in paths[len(kept):]:
            self.leave_out("a path past the bounds of a line")
        self.say(event + " | ".join(kept))

    def say(self, event):
        self.events += 1
        print(event, file=self.out)

    def leave_out(self, why):
        self.unsaid[why] += 1


def main():
    parser = argparse.ArgumentParser(description=__doc__.split("\n")[0])
    parser.add_argument("config")
    parser.add_argument("--from", dest="sender", help="who has sent what none of the configured peers sent")
    parser.add_argument("--shortest", action="store_true", help="the path with the shortest AS path stands first")
    words = parser.parse_args()
    with open(words.config, "rb") as config:
        table = Table(tomllib.load(config), words.sender, words.shortest, sys.stdout)
    for line in sys.stdin:
        table.take(line)
    table.fill()
    print(f"{table.events} events", file=sys.stderr)
    for why, count in sorted(table.unsaid.items()):
        print(f"left out, {count} times: {why}", file=sys.stderr)


if __name__ == "__main__":
    main()
