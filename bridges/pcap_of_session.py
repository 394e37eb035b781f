#!/usr/bin/env python3
"""Turns the file of a session into a capture that Wireshark and tshark open, each message in a packet of its own.

    pcap_of_session.py SESSION CAPTURE [--local ADDRESS] [--address ADDRESS]

The addresses are those of both ends, the speaker's first; without them they are of the block for documentation. The packets are
made by text2pcap, which comes with Wireshark (Debian: wireshark-common, which tshark brings).
"""
import argparse
import ipaddress
import subprocess
import sys

from messages import messages_of

# An IP packet has at most 65,535 bytes, its headers among them: a longer message goes in two.
LONGEST = 65000


def dump_of(pieces):
    """The pieces as text2pcap reads them: an offset, and up to 16 bytes a line."""
    lines = []
    for piece in pieces:
        for at in range(0, len(piece), 16):
            lines.append(f"{at:06x} " + " ".join(f"{byte:02x}" for byte in piece[at:at + 16]))
    return "\n".join(lines) + "\n"


def main():
    parser = argparse.ArgumentParser(description=__doc__.split("\n")[0])
    parser.add_argument("session")
    parser.add_argument("capture")
    parser.add_argument("--local", default="192.0.2.1")
    parser.add_argument("--address", default="192.0.2.2")
    words = parser.parse_args()
    with open(words.session, "rb") as session:
        messages, rest = messages_of(session.read())
    pieces = [message[at:at + LONGEST] for message in messages for at in range(0, len(message), LONGEST)]
    version = ipaddress.ip_address(words.local).version
    made = subprocess.run(
        ["text2pcap", "-q", "-T", "179,50000", f"-{version}", f"{words.local},{words.address}", "-", words.capture],
        input=dump_of(pieces), text=True, capture_output=True)
    if made.returncode != 0:
        sys.exit(f"text2pcap: {made.stderr.strip()}")
    print(f"messages {len(messages)} packets {len(pieces)} rest {rest}", file=sys.stderr)


if __name__ == "__main__":
    main()
