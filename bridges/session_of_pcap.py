#!/usr/bin/env python3
"""Cuts what one end of a session said out of a capture, as `check` reads it: its UPDATEs and ROUTE-REFRESH messages, and
nothing else.

    session_of_pcap.py CAPTURE ADDRESS [--stream N] > SESSION

ADDRESS is the end whose messages are wanted. Where it has several sessions in the capture they are listed, and --stream chooses one by its
number. It is read by tshark (Debian: tshark), which puts the TCP stream together.
"""
import argparse
import collections
import subprocess
import sys

from messages import NAMES, ROUTE_REFRESH, UPDATE, kind_of, messages_of


def tshark(*words):
    made = subprocess.run(["tshark", *words], text=True, capture_output=True)
    if made.returncode != 0:
        sys.exit(f"tshark: {made.stderr.strip()}")
    return made.stdout


def streams_of(capture, address):
    """The TCP streams between this address and another one in which BGP's port is an end."""
    field = "ipv6" if ":" in address else "ip"
    said = tshark("-r", capture, "-Y", f"tcp.port == 179 && {field}.src == {address}", "-T", "fields", "-e", "tcp.stream")
    return sorted({int(number) for number in said.split()})


def bytes_of(capture, stream, address):
    """What the address said in the stream. In tshark's text the lines of the second end begin with a tab."""
    said, nodes = bytearray(), {}
    for line in tshark("-r", capture, "-q", "-z", f"follow,tcp,raw,{stream}").splitlines():
        if line.startswith("Node "):
            number, _, end = line[5:].partition(": ")
            nodes[number] = end.rpartition(":")[0].strip("[]")
        elif line.strip() and not line.startswith(("=", "Follow", "Filter")):
            if nodes["1" if line.startswith("\t") else "0"] == address:
                said += bytes.fromhex(line.strip())
    return bytes(said)


def main():
    parser = argparse.ArgumentParser(description=__doc__.split("\n")[0])
    parser.add_argument("capture")
    parser.add_argument("address")
    parser.add_argument("--stream", type=int)
    words = parser.parse_args()
    streams = streams_of(words.capture, words.address)
    if words.stream is None and len(streams) != 1:
        sys.exit(f"{len(streams)} sessions of {words.address}: choose one by --stream, of {streams}")
    stream = streams[0] if words.stream is None else words.stream
    messages, rest = messages_of(bytes_of(words.capture, stream, words.address))
    kept = [message for message in messages if kind_of(message) in (UPDATE, ROUTE_REFRESH)]
    sys.stdout.buffer.write(b"".join(kept))
    left_out = collections.Counter(NAMES.get(kind_of(m), "unknown") for m in messages if kind_of(m) not in (UPDATE, ROUTE_REFRESH))
    print(f"messages {len(kept)} rest {rest}", file=sys.stderr)
    for name, count in sorted(left_out.items()):
        print(f"left out, {count} times: {name}", file=sys.stderr)


if __name__ == "__main__":
    main()
