#!/usr/bin/env python3
"""Drawn workloads, worked out from the definitions of the workload and of PCG32 alone.

    selfrun.py summary NUMBER ..    prints what `selfrun` has to print of each number
    selfrun.py try PROGRAM COUNT    tries so many numbers, and the greatest: `selfrun` twice, and `run` over the same kind of workload with 1 to 16
                                    peers and up to 2,000 events, with workers and without, whose sessions `check` then reads

Nothing of it is taken from the program: the generator is that of the PCG paper (XSH RR 64/32), the events are drawn as
crates/ug_selfrun/specs says, and a peer's rows are counted by the outbound rules for a speaker's own routes, which every peer is sent
that its policy's list permits.
"""
import os
import subprocess
import sys
import tempfile

MASK = (1 << 64) - 1


class Pcg32:
    """PCG32 by its C reference: a state, and a stream whose increment is odd."""

    def __init__(self, state, stream):
        self.increment = (stream << 1 | 1) & MASK
        self.state = (state + self.increment) & MASK
        self.step()

    def step(self):
        self.state = (self.state * 6364136223846793005 + self.increment) & MASK

    def next(self):
        old = self.state
        self.step()
        word = ((old >> 18 ^ old) >> 27) & 0xFFFFFFFF
        turn = old >> 59
        return (word >> turn | word << (-turn & 31)) & 0xFFFFFFFF

    def draw(self, below):
        return self.next() % below


# the first words of the reference program of PCG's C code, which begins with pcg32_srandom(42, 54)
reference = Pcg32(42, 54)
assert [reference.next() for _ in range(6)] == [0xA15C02B7, 0x7B47F409, 0xBA1D3330, 0x83D2F293, 0xBFA4784B, 0xCBED606E]


def events(number, peers, count):
    rng = Pcg32(number, 1)
    up = [True] * peers
    for k in range(peers):
        yield ("up", k)
    for _ in range(count):
        a = rng.draw(100)
        if a < 60:
            prefix = (rng.draw(16), rng.draw(256))
            paths = 1 + rng.draw(2)
            yield ("paths", prefix, [rng.draw(8) for _ in range(paths)])
        elif a < 85:
            yield ("withdraw", (rng.draw(16), rng.draw(256)))
        elif a < 90:
            yield ("refresh", rng.draw(peers))
        elif a < 95:
            k = rng.draw(peers)
            yield ("policy", k, rng.draw(2) == 1)
        elif a < 98:
            k = rng.draw(peers)
            up[k] = not up[k]
            yield ("up" if up[k] else "down", k)
        else:
            yield ("list", 16 + rng.draw(17))


def outcome(number, peers, count):
    """How many events are accepted and refused, the refusals by the place of the event from 1, and for each peer None where it
    is down and else how many rows it has."""
    up = [False] * peers
    filtered = [False] * peers
    longest = 24
    routes = {}
    accepted = 0
    refusals = []
    for place, event in enumerate(events(number, peers, count), 1):
        kind = event[0]
        refusal = None
        if kind == "paths":
            routes[event[1]] = len(event[2])
        elif kind == "withdraw":
            if routes.pop(event[1], None) is None:
                refusal = "4 no-such-prefix"
        elif kind == "refresh":
            if not up[event[1]]:
                refusal = "3 not-up"
        elif kind == "policy":
            filtered[event[1]] = event[2]
        elif kind == "list":
            longest = event[1]
        else:
            assert up[event[1]] == (kind == "down")
            up[event[1]] = kind == "up"
        if refusal is None:
            accepted += 1
        else:
            refusals.append(f"line {place} refused {refusal}")
    rows = []
    for k in range(peers):
        permitted = not filtered[k] or longest >= 24
        told = sum(n if (k + 1) % 3 == 0 else 1 for n in routes.values()) if permitted else 0
        rows.append(told if up[k] else None)
    return accepted, refusals, rows


def summary(number):
    accepted, refusals, rows = outcome(number, 6, 4000)
    lines = [f"selfrun {number} accepted {accepted} refused {len(refusals)}"]
    lines += [f"peer g{k} down" if n is None else f"peer g{k} rows {n}" for k, n in enumerate(rows, 1)]
    return "\n".join(lines) + "\n"


def configuration(peers):
    text = """[local]
as = 65001
router_id = "10.255.0.1"
queue_limit = 20
coalesce = 4
slow_after = 8

[[prefix_list]]
name = "gl"
entry = [{ seq = 10, action = "permit", prefix = "10.0.0.0/8", le = 24 }]

[[policy]]
name = "gp"
prefix_list = "gl"
"""
    for i in range(1, peers + 1):
        text += f"""
[[peer]]
name = "g{i}"
as = {65100 + i if i % 2 else 65001}
router_id = "10.200.{i}.2"
address = "10.200.{i}.2"
local_address = "10.200.{i}.1"
subnet = "10.200.{i}.0/24"
add_path = {"true" if i % 3 == 0 else "false"}
"""
    return text


def line(event):
    kind = event[0]
    if kind in ("paths", "withdraw"):
        prefix = f"10.{event[1][0]}.{event[1][1]}.0/24"
        if kind == "withdraw":
            return f"withdraw {prefix}"
        return f"paths {prefix} " + " | ".join(f"id={j} from=local nh=0.0.0.0 origin=igp as=- med={med}" for j, med in enumerate(event[2], 1))
    if kind == "policy":
        return f"policy g{event[1] + 1} {'gp' if event[2] else '-'}"
    if kind == "list":
        return f"list gl 10:permit:10.0.0.0/8:le={event[1]}"
    return f"{kind} g{event[1] + 1}"


def ran(words):
    done = subprocess.run(words, capture_output=True, text=True)
    return done.returncode, done.stdout, done.stderr


def audited(program, config, path, report, there):
    """What an audit of a run's files has to say against them; nothing, where each session has its certificate."""
    with open(there + ".report", "w") as file:
        file.write(report)
    code, certificate, errors = ran([program, "audit", config, path, there + ".report", there])
    sessions = sum(text.startswith("session ") for text in certificate.splitlines())
    if code or errors or sessions != len(os.listdir(there)):
        return [f"{there}: the audit ends with {code}, {certificate[:100]}, {sessions} sessions"]
    return []


def try_run(program, number, folder):
    """What is wrong with a run over a workload, with workers or without; nothing, where all is well."""
    peers = 1 + number % 16
    count = 40 * (1 + number % 50)
    accepted, refusals, rows = outcome(number, peers, count)
    config, path = os.path.join(folder, "config"), os.path.join(folder, "events")
    with open(config, "w") as file:
        file.write(configuration(peers))
    with open(path, "w") as file:
        file.write("".join(line(event) + "\n" for event in events(number, peers, count)))
    wrong = []
    for workers in "01":
        there = os.path.join(folder, workers)
        os.mkdir(there)
        code, report, errors = ran([program, "run", config, path, there, "--workers", workers])
        lines = report.splitlines()
        wrong += audited(program, config, path, report, there)
        said = [text for text in lines if not text.startswith("refresh ")]
        if code or errors or said != refusals + [f"accepted {accepted} refused {len(refusals)}"]:
            wrong.append(f"{number} with --workers {workers}: status {code}, {said[-1:]}")
        for k, want in enumerate(rows, 1):
            if want is None:
                continue
            session = max((name for name in os.listdir(there) if name.startswith(f"g{k}.")), key=lambda name: int(name.split(".")[1]))
            options = ["--add-path"] if k % 3 == 0 else []
            code, report, errors = ran([program, "check", *options, os.path.join(there, session)])
            if code or f" rows {want} rest 0" not in report.splitlines()[-1]:
                wrong.append(f"{number} with --workers {workers}: g{k} has {report.splitlines()[-1:]} in place of {want} rows")
    return wrong


def try_all(program, count):
    passed, wrong = 0, []
    for number in range(count):
        want = (0, summary(number), "")
        found = [f"selfrun {number}: {got}" for got in (ran([program, "selfrun", *words]) for words in ([str(number)], ["--", f"00{number}"])) if got != want]
        with tempfile.TemporaryDirectory() as folder:
            found += try_run(program, number, folder)
        passed += not found
        wrong += found[:1]
    greatest = (1 << 64) - 1
    if ran([program, "selfrun", str(greatest)]) == (0, summary(greatest), ""):
        passed += 1
    else:
        wrong.append(f"selfrun {greatest}")
    count += 1
    print("".join(text + "\n" for text in wrong) + f"{passed} passed, {count - passed} failed")
    return 0 if passed == count else 1


if __name__ == "__main__":
    if sys.argv[1] == "summary":
        for word in sys.argv[2:]:
            sys.stdout.write(summary(int(word)))
    else:
        sys.exit(try_all(os.path.abspath(sys.argv[2]), int(sys.argv[3])))
