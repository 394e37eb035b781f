#!/usr/bin/env python3
"""Takes a run to real neighbors: a BGP session over TCP for each peer of CONFIG, over which it is sent what `ug_main run` writes.

    live.py CONFIG [--events FILE] [--listen ADDRESS[:PORT]] [--keep FOLDER] [--passive] [--md5 FILE] [--ttl-security] [--json]

Events come as they are written into FILE, a pipe, or standard input; the report goes to standard output, and a line for each
change of state to standard error. Ctrl-C ends all sessions and then the run. What neighbors tell in UPDATEs is counted and
dropped: this is the outbound half. docs/LIVE.md is the manual.
"""
import argparse
import asyncio
import contextlib
import ipaddress
import os
import pathlib
import shutil
import signal
import subprocess
import sys
import tempfile

import live_config
import live_events
import live_sockets
from live_faults import Fault
from live_keep import Keep
from live_neighbor import Neighbor
from live_run import Run
from live_said import Said

ROOT = pathlib.Path(__file__).resolve().parent.parent
PROGRAMS = [ROOT / "out/ug_main", ROOT / "out/ug_main-unproved"]
# As a shell says that a signal ended a program.
BY_SIGNAL = 128


def words_of(arguments):
    parser = argparse.ArgumentParser(description=__doc__.split("\n")[0])
    parser.add_argument("config", metavar="CONFIG")
    parser.add_argument("--events", metavar="FILE", default="-", help="where events come from; standard input, `-`, where it isn't given")
    parser.add_argument("--listen", metavar="ADDRESS[:PORT]", action="append", default=[],
                        help="where to listen and call from, and the port of both sides (179); else each local_address. May stand twice")
    parser.add_argument("--keep", metavar="FOLDER", help="an empty folder, which gets what `audit` reads")
    parser.add_argument("--passive", action="store_true", help="only listens, and calls nobody")
    parser.add_argument("--md5", metavar="FILE", help="keys for TCP MD5: a line has a peer's name, a space, and its key")
    parser.add_argument("--ttl-security", action="store_true", help="neighbors are on the same link (RFC 5082)")
    parser.add_argument("--json", action="store_true", help="says changes of state as JSON objects")
    parser.add_argument("--program", metavar="PATH", help="the program; else out/ug_main, or else out/ug_main-unproved")
    return parser.parse_args(arguments)


class Live:
    """All sessions of one run."""

    def __init__(self, words, speaker, peers, keys, said):
        self.words, self.speaker, self.peers, self.keys, self.said = words, speaker, peers, keys, said
        self.events = live_events.opened(words.events)
        self.places = [(ipaddress.ip_address(address), port) for address, port in map(live_sockets.place_of, words.listen)]
        self.listeners, self.neighbors, self.stopping, self.presses = [], {}, None, 0

    # ---- places

    def sources(self):
        """Where to listen: the places of the command line, or the speaker's own addresses."""
        return self.places or sorted({(peer.local_address, live_sockets.PORT) for peer in self.peers}, key=str)

    def listen(self):
        """Opens the sockets that listen. What comes is taken once the run is there."""
        signed = [(peer.address, self.keys[peer.name]) for peer in self.peers if peer.name in self.keys]
        for address, port in self.sources():
            try:
                listener = live_sockets.listening(address, port, signed, self.words.ttl_security)
            except OSError as fault:
                raise OSError(f"can't listen at {address} port {port}: {fault.strerror}") from fault
            self.listeners.append(listener)

    def accept(self, listener):
        try:
            sock, place = listener.accept()
        except (BlockingIOError, ConnectionAbortedError):
            return
        sock.setblocking(False)
        address = ipaddress.ip_address(place[0].partition("%")[0])
        neighbor = self.neighbors.get(address)
        if neighbor is None:
            self.turn_away(sock, address, "no peer has this address")
        elif not neighbor.takes_another():
            self.turn_away(sock, address, "too many connections at once")
        else:
            neighbor.accept(sock)

    def turn_away(self, sock, address, why):
        """Connection Rejected (RFC 4486)."""
        fault = Fault(6, 5, why=why)
        self.said("refused", why=str(fault), address=str(address))
        with contextlib.suppress(OSError):
            sock.send(fault.message())
        sock.close()

    def call(self, peer):
        """A socket that can call this peer, and where to."""
        mine = [(address, port) for address, port in self.places if address.version == peer.address.version]
        source, port = mine[0] if mine else (peer.local_address, live_sockets.PORT)
        source = peer.local_address if source.is_unspecified else source
        sock = live_sockets.calling(source, peer.address, self.keys.get(peer.name), self.words.ttl_security)
        return sock, (str(peer.address), port)

    # ---- the run

    async def serve(self, run):
        """From the first session to the last. Gives the status of the run."""
        self.stopping = asyncio.Event()
        self.listen()
        await run.start()
        self.heed_signals(run)
        report = asyncio.create_task(run.report())
        pump = asyncio.create_task(self.pump(run))
        self.begin(run)
        await self.until_over(run, report)
        pump.cancel()
        await self.stop(report)
        run.close()
        status = await report
        self.said("run ended", status=status)
        return status if status >= 0 else BY_SIGNAL - status

    def begin(self, run):
        call = None if self.words.passive else self.call
        for peer in self.peers:
            self.neighbors[peer.address] = Neighbor(peer, self.speaker, run, self.said, call)
        for listener in self.listeners:
            address, port = listener.getsockname()[:2]
            asyncio.get_running_loop().add_reader(listener, self.accept, listener)
            self.said("listens", address=address, port=port)
        for neighbor in self.neighbors.values():
            neighbor.begin()

    async def pump(self, run):
        """Hands the operator's events on, as fast as the run takes them."""
        left_out, why = 0, None
        try:
            async for lines in live_events.whole_lines_of(self.events):
                lines, count = live_events.without_sessions(lines)
                left_out += count
                run.write(lines)
                await run.room()
        except OSError as fault:
            why = str(fault)
        self.said("events are over", why=why, lines=run.lines.count, left_out=left_out)

    def heed_signals(self, run):
        for number in (signal.SIGINT, signal.SIGTERM):
            asyncio.get_running_loop().add_signal_handler(number, self.press, run)

    def press(self, run):
        """The first Ctrl-C ends the sessions, and the second one the run."""
        self.presses += 1
        self.stopping.set()
        if self.presses > 1:
            run.kill()

    async def until_over(self, run, report):
        ends = [asyncio.create_task(self.stopping.wait()), asyncio.create_task(run.full.wait())]
        await asyncio.wait([report, *ends], return_when=asyncio.FIRST_COMPLETED)
        if run.full.is_set():
            self.said("is full", why="the run may have no more lines or bytes: docs/LIVE.md says how to go on", lines=run.lines.count)
        for end in ends:
            end.cancel()

    async def stop(self, report):
        """Cease to all (RFC 4271 section 6.7, RFC 4486), and no further connection."""
        for listener in self.listeners:
            asyncio.get_running_loop().remove_reader(listener)
            listener.close()
        fault = Fault(6, 8) if report.done() else Fault(6, 2)
        for neighbor in self.neighbors.values():
            neighbor.stop(fault)
        while any(neighbor.connections for neighbor in self.neighbors.values()):
            await asyncio.sleep(0.01)


def program_of(words):
    if words.program:
        return words.program
    return str(next((path for path in PROGRAMS if os.access(path, os.X_OK)), PROGRAMS[0]))


def prepared(words, program, folder):
    """The configuration as the run will read it, with what is wrong told by the program itself."""
    place = os.path.join(folder, "config.toml")
    shutil.copyfile(words.config, place)
    groups = subprocess.run([program, "groups", place], capture_output=True, text=True, check=False)
    if groups.returncode != 0:
        print(groups.stdout.splitlines()[-1] if groups.stdout else f"{program}: status {groups.returncode}")
        sys.exit(groups.returncode)
    speaker, peers = live_config.read(place)
    for first, second in live_config.shared_addresses(peers):
        sys.exit(f"{first} and {second} have one address, by which neighbors are told apart")
    return place, speaker, peers


def live(words, folder):
    """Does all. Gives the exit status: the run's, or where that is 0 the audit's."""
    program, said = program_of(words), Said(words.json)
    config, speaker, peers = prepared(words, program, folder)
    keys = live_sockets.keys_of(words.md5) if words.md5 else {}
    keep = Keep(words.keep, pathlib.Path(config).read_bytes()) if words.keep else None
    pipes = os.path.join(folder, "sessions")
    os.mkdir(pipes)

    async def all_sessions():
        run = Run(program, config, pipes, keep, said, speaker, peers)
        return await Live(words, speaker, peers, keys, said).serve(run)

    status = asyncio.run(all_sessions())
    if keep is None:
        return status
    keep.close()
    judged, line = keep.audit(program)
    said("audit", why=line, status=judged)
    return status or judged


def main():
    words = words_of(sys.argv[1:])
    with tempfile.TemporaryDirectory() as folder:
        try:
            sys.exit(live(words, folder))
        except (OSError, ValueError) as fault:
            sys.exit(f"live.py: {fault}")


if __name__ == "__main__":
    main()
