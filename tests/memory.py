"""Fails each allocation of runs in turn: memory.py PROGRAM LIBRARY CASE.. goes through the cases of tests/runs of these
names with both values of --workers, until no allocation is left to fail, and prints what came of each. The case `slow-peers`
is none of those: there a pipe that nobody reads for a while makes a peer slow, beside two that are not. `check`, `groups`, `audit` and
`one` are those commands over the files of the case `filters`, and `selfrun` is `selfrun 7`, of which, as it has more than 100,000
allocations, the first 400 are failed and then each 1,999th.

A run that lacked memory ends with status 6, its report is some lines of the whole report and then the status line, and each
session is a front of the whole one. Where it was a wire that lacked memory its session is lost, and the status is 8."""

import os
import re
import subprocess
import sys
import tempfile
import time
from collections import Counter
from itertools import chain, count
from pathlib import Path

PROGRAM, LIBRARY = (os.path.abspath(word) for word in sys.argv[1:3])
CASES = Path(__file__).resolve().parent / "runs"
LAST = b"status 6 memory\n"


def outcome(case, workers, number):
    """The status, the report, and the sessions by name, of a run whose allocation of that number fails."""
    with tempfile.TemporaryDirectory() as folder:
        surroundings = dict(os.environ, LD_PRELOAD=LIBRARY, FAIL=str(number))
        words = [PROGRAM, "run", case / "config.toml", case / "events", folder, "--workers", workers]
        done = subprocess.run(words, env=surroundings, stdout=subprocess.PIPE, timeout=60)
        sessions = {file.name: file.read_bytes() for file in Path(folder).iterdir()}
        return done.returncode, done.stdout, sessions


def peer(number):
    """The lines of the configuration for a peer, which shares with all others."""
    return (
        f'[[peer]]\nname = "p{number}"\nas = 65002\nrouter_id = "10.200.{number}.2"\naddress = "10.200.{number}.2"\n'
        f'local_address = "10.200.{number}.1"\nsubnet = "10.200.{number}.0/24"\n'
    )


def routes(count, med):
    """Lines of so many routes, each of another prefix."""
    return "".join(f"paths 20.0.{i}.0/24 id=1 from=local nh=0.0.0.0 origin=igp as=- med={med}\n" for i in range(count))


SLOW_CONFIG = '[local]\nas = 65001\nrouter_id = "10.255.0.1"\nqueue_limit = 20\nslow_after = 2\n' + "".join(map(peer, (1, 2, 3)))
# What comes while nobody reads p1's pipe: more than its queue and the pipe hold, so that p1 has to leave the others.
BEFORE = "up p1\nup p2\nup p3\n" + routes(30, 1) + routes(30, 2)
# And then: p1 is told what it lacks, and shares again.
BEHIND = "sync\n" + routes(3, 3) + "withdraw 20.0.5.0/24\nsync\n"


class SlowRun:
    """A run with a thread for each of three sessions, to the first of which a pipe leads."""

    def __init__(self, folder, number):
        self.there = Path(folder, "there")
        self.there.mkdir()
        os.mkfifo(self.there / "p1.1")
        os.mkfifo(Path(folder, "events"))
        Path(folder, "config").write_text(SLOW_CONFIG)
        self.events = os.open(Path(folder, "events"), os.O_RDWR)
        words = [PROGRAM, "run", Path(folder, "config"), Path(folder, "events"), self.there, "--workers", "1"]
        surroundings = dict(os.environ, LD_PRELOAD=LIBRARY, FAIL=str(number))
        self.program = subprocess.Popen(words, env=surroundings, stdout=subprocess.PIPE)
        self.threads = 0

    def size(self, name):
        file = self.there / name
        return file.stat().st_size if file.exists() else 0

    def ends(self):
        """Whether the run is over, or waits for p1 alone: threads ended."""
        if self.program.poll() is not None:
            return True
        try:
            now = len(os.listdir(f"/proc/{self.program.pid}/task"))
        except FileNotFoundError:
            return True
        self.threads = max(self.threads, now)
        return now < self.threads

    def wait_for_the_others(self, told):
        """Waits until p2 and p3 were told so many bytes each, or no more come, and answers how many it were."""
        start, since, last = time.monotonic(), time.monotonic(), None
        while not self.ends() and time.monotonic() - start < 20:
            now = (self.size("p2.1"), self.size("p3.1"))
            if now != last:
                since, last = time.monotonic(), now
            if now == told or now[0] > 0 and time.monotonic() - since > 1:
                break
            time.sleep(0.002)
        return last

    def read_slowly(self):
        """What p1 is told, once it is read, until the run is over."""
        pipe = os.open(self.there / "p1.1", os.O_RDONLY | os.O_NONBLOCK)
        read = b""
        while True:
            is_over = self.program.poll() is not None
            try:
                piece = os.read(pipe, 65536)
            except BlockingIOError:
                piece = b""
            read += piece
            if not piece:
                if is_over:
                    break
                time.sleep(0.001)
        os.close(pipe)
        return read


TOLD = None


def slow_outcome(number):
    """The same as `outcome` of a run in which p1 is read only once the others were told what came before."""
    global TOLD
    with tempfile.TemporaryDirectory() as folder:
        run = SlowRun(folder, number)
        os.write(run.events, BEFORE.encode())
        told = run.wait_for_the_others(TOLD)
        if number == 0:
            TOLD = told
        os.write(run.events, BEHIND.encode())
        os.close(run.events)
        sessions = {"p1.1": run.read_slowly()}
        report = run.program.communicate(timeout=60)[0]
        for name in ("p2.1", "p3.1"):
            if (run.there / name).exists():
                sessions[name] = (run.there / name).read_bytes()
        return run.program.returncode, report, sessions


def is_front(whole, found):
    """Whether a run that lacked memory left what it should, beside the whole one."""
    status, report, sessions = found
    if status == 8:
        return True
    lines = report[: -len(LAST)]
    return (
        status == 6
        and report.endswith(LAST)
        and whole[1].startswith(lines)
        and (not lines or lines.endswith(b"\n"))
        and all(whole[2].get(name, b"").startswith(text) for name, text in sessions.items())
    )


def table(session):
    """The routes that a session leaves, and how many bytes behind its whole messages it has."""
    with tempfile.NamedTemporaryFile() as file:
        file.write(session)
        file.flush()
        said = subprocess.run([PROGRAM, "check", file.name], stdout=subprocess.PIPE, timeout=60).stdout.decode().splitlines()
    return said[:-1], said[-1].split()[-1]


def is_told(name, row):
    """Whether a route in the session of that name is one that the events of the slow run have."""
    return bool(re.fullmatch(rf"20\.0\.([0-9]|[12][0-9])\.0/24 id=0 nh=10\.200\.{name[1]}\.1 origin=igp as=65001 med=[123]", row))


def is_otherwise_packed(whole, found):
    """Whether packets of a slow run are others alone: a thread could not be started, and its session was written by the one
    that reads the events, or one was late. A run that lacked memory left whole messages with routes that there were, and one
    that did not the same tables as the whole one."""
    status, report, sessions = found
    tables = {name: table(text) for name, text in sessions.items()}
    if any(rest != "0" for _, rest in tables.values()):
        return False
    if status == 0:
        return report.splitlines()[-1] == whole[1].splitlines()[-1] and tables == {name: table(text) for name, text in whole[2].items()}
    lines = report[: -len(LAST)].splitlines()
    return (
        status == 6
        and report.endswith(LAST)
        and all(line.startswith(b"sync ") for line in lines)
        and all(is_told(name, row) for name, (rows, _) in tables.items() for row in rows)
    )


def is_slow_front(whole, found):
    """The same of a run with a slow peer."""
    return is_front(whole, found) or is_otherwise_packed(whole, found)


def sweep(name, outcome_of, is_right=is_front, numbers=count(1)):
    """Goes through the allocations of a case, or those of these numbers, and answers whether all came as they should."""
    whole = outcome_of(0)
    statuses, wrong, alike, last = Counter(), [], 0, 0
    for number in numbers:
        found = outcome_of(number)
        statuses[found[0]] += 1
        alike, last = (alike + 1, last) if found == whole else (0, number)
        if found != whole and not is_right(whole, found):
            wrong.append(number)
        if alike == 40:
            break
    print(f"{name}: allocations to number {last}, statuses {dict(statuses)}, wrong {wrong}")
    return not wrong


def words_of(command, folder):
    """The words of a command over the case `filters`, whose run left its report and sessions in this folder."""
    case = CASES / "filters"
    return {
        "check": ["check", min(Path(folder, "there").iterdir())],
        "groups": ["groups", case / "config.toml"],
        "audit": ["audit", case / "config.toml", case / "events", Path(folder, "report"), Path(folder, "there")],
        "one": ["one", case / "events", Path(folder, "own")],
        "selfrun": ["selfrun", "7"],
    }[command]


def sweep_command(command):
    """The same of a command over files that are there."""
    with tempfile.TemporaryDirectory() as folder:
        for part in ("there", "own"):
            Path(folder, part).mkdir()
        case = CASES / "filters"
        with open(Path(folder, "report"), "wb") as report:
            subprocess.run([PROGRAM, "run", case / "config.toml", case / "events", Path(folder, "there")], stdout=report, timeout=60)
        words = [PROGRAM, *words_of(command, folder)]

        def outcome_of(number):
            for file in Path(folder, "own").iterdir():
                file.unlink()
            done = subprocess.run(words, env=dict(os.environ, LD_PRELOAD=LIBRARY, FAIL=str(number)), stdout=subprocess.PIPE, timeout=60)
            return done.returncode, done.stdout, {file.name: file.read_bytes() for file in Path(folder, "own").iterdir()}

        return sweep(command, outcome_of, numbers=chain(range(1, 401), count(1999, 1999)) if command == "selfrun" else count(1))


def sweeps(name):
    """The same of a case with each value of --workers with which there is such a case."""
    if name == "slow-peers":
        return [sweep("slow-peers with workers", slow_outcome, is_slow_front)]
    if name in ("check", "groups", "audit", "one", "selfrun"):
        return [sweep_command(name)]
    return [sweep(f"{name} --workers {workers}", lambda number: outcome(CASES / name, workers, number)) for workers in "01"]


results = [result for name in sys.argv[3:] for result in sweeps(name)]
print(f"{sum(results)} passed, {len(results) - sum(results)} failed")
sys.exit(not all(results))
