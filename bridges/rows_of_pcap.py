#!/usr/bin/env python3
"""What a capture of one session leaves at its receiver, as tshark reads the messages: rows as `check` prints them.

    rows_of_pcap.py CAPTURE [--as-numbers 2|4]

tshark knows nothing of the OPENs that a capture doesn't have: it guesses whether AS numbers have two bytes or four, and whether routes
have identifiers. So this is a second opinion on streams, and `check` is the judge.
"""
import argparse
import ipaddress
import subprocess
import sys
import xml.etree.ElementTree as ElementTree

ATTRIBUTE = "bgp.update.path_attribute."
ORIGINS = ["igp", "egp", "incomplete"]
ANNOUNCED = ("bgp.nlri_prefix", "bgp.mp_reach_nlri_ipv6_prefix", "bgp.mp_reach_nlri_ipv4_prefix")
WITHDRAWN = ("bgp.withdrawn_prefix", "bgp.mp_unreach_nlri_ipv6_prefix", "bgp.mp_unreach_nlri_ipv4_prefix")
# The order of the fields of a row.
FIELDS = ["nh", "origin", "as", "med", "lp", "atomic", "agg", "comm", "originator", "clusters"]


class Update:
    """One message: its routes, and its attributes as the words of a row."""

    def __init__(self):
        self.number, self.length = 0, 0
        self.withdrawn, self.announced, self.said = [], [], {}
        self.segments, self.lists = [], {}

    def take(self, field):
        name, show = field.get("name"), field.get("show")
        short = name.removeprefix(ATTRIBUTE)
        if name == "bgp.nlri_path_id":
            self.number = int(show)
        elif name in ("bgp.prefix_length", "bgp.withdrawn_prefix_length"):
            self.length = int(show)
        elif name in ANNOUNCED + WITHDRAWN:
            key = (ipaddress.ip_network(f"{show}/{self.length}", strict=False), self.number)
            (self.announced if name in ANNOUNCED else self.withdrawn).append(key)
            self.number = 0
        elif short == "as_path_segment.type":
            self.segments.append((int(show), []))
        elif short in ("as_path_segment.as4", "as_path_segment.as2"):
            self.segments[-1][1].append(show)
        elif short == "origin":
            self.said["origin"] = ORIGINS[int(show)]
        elif short in ("next_hop", "mp_reach_nlri.next_hop.ipv6"):
            self.said["nh"] = show
        elif short == "multi_exit_disc":
            self.said["med"] = show
        elif short == "local_pref":
            self.said["lp"] = show
        elif short == "type_code" and show == "6":
            self.said["atomic"] = None
        elif short == "aggregator_as":
            self.said["agg"] = show
        elif short == "aggregator_origin":
            self.said["agg"] += ":" + show
        elif short == "originator_id":
            self.said["originator"] = show
        elif short == "community_as":
            self.lists.setdefault("comm", []).append(show)
        elif short == "community_value":
            self.lists["comm"][-1] += ":" + show
        elif short == "community_wellknown":
            high, low = divmod(int(show, 16), 65536)
            self.lists.setdefault("comm", []).append(f"{high}:{low}")
        elif name == "bgp.path_attribute.cluster_list":
            # Of a long list the text is cut short, at some twenty.
            self.lists["clusters"] = field.get("showname").removeprefix("Cluster List: ").split()

    def text(self):
        parts = ["{" + ",".join(numbers) + "}" if kind == 1 else ",".join(numbers) for kind, numbers in self.segments]
        said = {**self.said, "as": ";".join(parts) or "-", **{name: ",".join(words) for name, words in self.lists.items()}}
        said["nh"] = address_text(said["nh"])
        return " ".join(name if said[name] is None else f"{name}={said[name]}" for name in FIELDS if name in said)


def address_text(address):
    """An address as rows have it: of IPv6 all eight groups."""
    made = ipaddress.ip_address(address)
    if made.version == 4:
        return str(made)
    return ":".join(f"{int(group, 16):x}" for group in made.exploded.split(":"))


def updates_of(capture, options):
    words = [word for name, value in options for word in ("-o", f"{name}:{value}")]
    made = subprocess.run(["tshark", "-r", capture, *words, "-T", "pdml"], capture_output=True)
    if made.returncode != 0:
        sys.exit(f"tshark: {made.stderr.decode().strip()}")
    for protocol in ElementTree.fromstring(made.stdout).iter("proto"):
        if protocol.get("name") == "bgp":
            update = Update()
            for field in protocol.iter("field"):
                update.take(field)
            yield update


def main():
    parser = argparse.ArgumentParser(description=__doc__.split("\n")[0])
    parser.add_argument("capture")
    parser.add_argument("--as-numbers", choices=["2", "4"], default="4")
    words = parser.parse_args()
    size = {"2": "2 octet", "4": "4 octet"}[words.as_numbers]
    table = {}
    for update in updates_of(words.capture, [("bgp.asn_len", size)]):
        for key in update.withdrawn:
            table.pop(key, None)
        for key in update.announced:
            table[key] = update.text()
    for prefix, number in sorted(table, key=lambda key: (key[0].version, int(key[0].network_address), key[0].prefixlen, key[1])):
        print(f"{address_text(prefix.network_address)}/{prefix.prefixlen} id={number} {table[prefix, number]}")


if __name__ == "__main__":
    main()
