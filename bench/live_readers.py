#!/usr/bin/env python3
"""The neighbors of bench/live.sh: they read what a live run sends, and measure how long it takes. The program is the one word."""
import os
import pathlib
import select
import statistics
import subprocess
import sys
import tempfile
import threading
import time

ROOT = pathlib.Path(__file__).resolve().parent.parent
sys.path.insert(0, str(ROOT / "bridges/tests"))
from live_running import Live, config_text, peer_text
from neighbor import PATIENCE, Neighbor

PEERS = [int(word) for word in os.environ.get("PEERS", "1 16 64").split()]
PREFIXES = int(os.environ.get("PREFIXES", "100000"))
COALESCE = int(os.environ.get("COALESCE", "1"))
RUNS = int(os.environ.get("RUNS", "3"))
EVENTS = 200


def address(number):
    return f"127.0.1.{number}"


def config(peers):
    return config_text(*(peer_text(f"p{n}", address(n), 65100 + n, f"192.0.2.{n}", local="198.51.100.1") for n in range(1, peers + 1)),
                       coalesce=COALESCE)


def paths(prefix, med):
    return f"paths {prefix} id=1 from=local nh=0.0.0.0 origin=igp as=- med={med}\n"


def table(prefixes):
    """So many routes, and one behind them that nothing else is like."""
    return "".join(paths(f"{20 + n // 65536}.{n // 256 % 256}.{n % 256}.0/24", n // 10) for n in range(prefixes))


def last(number):
    """A route that is told last, and its bytes in an UPDATE."""
    return paths(f"198.18.{number}.0/24", 1000000 + number), bytes([24, 198, 18, number])


class Readers:
    """Neighbors with a session each. What they read is thrown away, but for the end."""

    def __init__(self, live, count):
        self.ends = {}
        for n in range(1, count + 1):
            neighbor = Neighbor(address(n), 65100 + n, f"192.0.2.{n}")
            neighbor.establish(live.places[0])
            self.ends[neighbor.sock] = b""

    def read_until(self, wanted):
        """Until each has had these bytes, which stand at the end of an UPDATE."""
        left = {sock for sock in self.ends if wanted not in self.ends[sock]}
        while left:
            ready, _, _ = select.select(list(left), [], [], PATIENCE)
            if not ready:
                raise SystemExit(f"{len(left)} neighbors lack the last route")
            for sock in ready:
                self.ends[sock] = (self.ends[sock] + sock.recv(1 << 20))[-100:]
                if wanted in self.ends[sock]:
                    left.remove(sock)


def tell(live, readers, text, number):
    """How long it takes until these lines and one behind them are with all. They are written beside the reading."""
    line, wanted = last(number)
    begun = time.monotonic()
    writer = threading.Thread(target=live.write, args=(text + line,))
    writer.start()
    readers.read_until(wanted)
    seconds = time.monotonic() - begun
    writer.join()
    return seconds


def one_by_one(live, readers):
    """How long each of some events takes that come alone."""
    seconds = []
    for number in range(EVENTS):
        seconds.append(tell(live, readers, "", number))
        time.sleep(0.02)
    return seconds


def alone(program, count):
    """The time of `run` over the same events, into files."""
    with tempfile.TemporaryDirectory() as folder:
        place = pathlib.Path(folder)
        (place / "config").write_text(config(count))
        (place / "events").write_text("".join(f"up p{n}\n" for n in range(1, count + 1)) + table(PREFIXES))
        (place / "there").mkdir()
        begun = time.monotonic()
        subprocess.run([program, "run", place / "config", place / "events", place / "there"], check=True, stdout=subprocess.DEVNULL)
        return time.monotonic() - begun


def measure(program, count):
    """The figures of so many neighbors: a table, a thousand routes, and events one by one."""
    with Live(program, config(count), keep=False) as live:
        readers = Readers(live, count)
        few = tell(live, readers, table(1000), 250)
        single = one_by_one(live, readers)
        return tell(live, readers, table(PREFIXES), 251), few, single


def main():
    program = sys.argv[1]
    for count in PEERS:
        runs = [measure(program, count) for _ in range(RUNS)]
        whole, few = min(run[0] for run in runs), min(run[1] for run in runs)
        single = sorted(second for run in runs for second in run[2])
        print(f"{PREFIXES} routes to {count} sessions, coalesce {COALESCE}: {whole:.2f} s, {PREFIXES * count / whole:.0f} routes a second "
              f"({PREFIXES / whole:.0f} a session); run alone {min(alone(program, count) for _ in range(RUNS)):.2f} s; "
              f"1000 routes {few * 1000:.0f} ms; an event {statistics.median(single) * 1000:.1f} ms "
              f"(least {single[0] * 1000:.1f}, 99 in a hundred {single[len(single) * 99 // 100] * 1000:.1f})", flush=True)


if __name__ == "__main__":
    main()
