#!/usr/bin/env python3
"""Tries live sessions with the daemons that are installed: FRR, BIRD and GoBGP, each over loopback and both families.

    daemons.py PROGRAM [NAME..]

What a daemon's own dump says has to be the table that `check` reads of what was kept: after a start, a flap, a change of policy, a
request to be told again, and a filter of its own. At the end `audit` says that all of it was right. The last line is
`N passed, M failed`.
"""
import concurrent.futures
import ipaddress
import json
import os
import pathlib
import re
import shutil
import socket
import subprocess
import sys
import tempfile
import time
import traceback

from live_running import LOCAL_AS, Live, config_text, peer_text
from neighbor import PATIENCE

LOCAL = {4: "127.0.0.1", 6: "::1"}
NEXT_HOPS = {4: "198.51.100.1", 6: "2001:db8:ffff::1"}
POLICIES = """
[[prefix_list]]
name = "some"
entry = [{ seq = 5, action = "permit", prefix = "10.0.0.0/18", le = 24 }]

[[route_map]]
name = "marks"
entry = [{ seq = 10, action = "permit", set_med = 77 }]

[[policy]]
name = "some"
prefix_list = "some"

[[policy]]
name = "marked"
route_map = "marks"
"""
COUNT = {4: 120, 6: 40}
BGPD = "/usr/lib/frr/bgpd"


def route(prefix, number, next_hop, origin, path, med, local_pref, communities):
    """A route as all dumps are compared. What a dump doesn't have is the same in all of them."""
    return (str(ipaddress.ip_network(prefix)), number, str(ipaddress.ip_address(next_hop)), origin.lower(), " ".join(map(str, path)),
            med, local_pref, tuple(communities))


def of_check(row, has_numbers):
    """A row of `check`."""
    prefix, *words = row.split(" ")
    fields = dict(word.partition("=")[::2] for word in words)
    path = re.findall(r"\d+|\{[\d,]+\}", fields["as"])
    return route(prefix, int(fields["id"]) if has_numbers else 0, fields["nh"], fields["origin"], path,
                 number_of(fields.get("med")), number_of(fields.get("lp")), filter(None, fields.get("comm", "").split(",")))


def number_of(text):
    return None if text is None else int(text)


def free_port(address):
    """A port at which nobody listens there, of those that the system gives."""
    with socket.socket(socket.AF_INET6 if ":" in address else socket.AF_INET) as sock:
        sock.bind((address, 0))
        return sock.getsockname()[1]


class Daemon:
    """A daemon that runs in the foreground, in a folder of its own. It calls the live run from `address` and from ::1."""
    options = {}
    asn, has_numbers = 65021, True

    def __init__(self, folder, ports):
        self.folder, self.ports, self.process = folder, ports, None

    def start(self):
        self.write("conf", self.config())
        with open(self.folder / "log", "w", encoding="utf-8") as log:
            self.process = subprocess.Popen(self.command(), stdout=log, stderr=log)

    def write(self, name, text):
        (self.folder / name).write_text(text)

    def ask(self, *words):
        return subprocess.run(words, capture_output=True, text=True, check=False, timeout=PATIENCE).stdout

    def refresh(self):
        """Has it ask for everything again, where it has such a command."""
        return False

    def stop(self):
        if self.process is not None:
            self.process.terminate()
            self.process.wait(PATIENCE)


class Frr(Daemon):
    """FRR's bgpd alone, without zebra."""
    name, address, needs = "FRR", "127.0.0.21", BGPD
    options = {"add_path": True, "extended": True, "enhanced_refresh": True}
    has_filter = False

    def config(self):
        orf = f"  neighbor {LOCAL[4]} capability orf prefix-list send\n  neighbor {LOCAL[4]} prefix-list wanted in\n" if self.has_filter else ""
        return (f"ip prefix-list wanted seq 5 permit 0.0.0.0/0 le 32\nrouter bgp {self.asn}\n bgp router-id 192.0.2.21\n"
                " no bgp default ipv4-unicast\n no bgp ebgp-requires-policy\n"
                + "".join(self.neighbor(version, source) for version, source in ((4, self.address), (6, "::1")))
                + f" address-family ipv4 unicast\n  neighbor {LOCAL[4]} activate\n{orf} exit-address-family\n"
                + f" address-family ipv6 unicast\n  neighbor {LOCAL[6]} activate\n exit-address-family\n")

    def neighbor(self, version, source):
        it = f" neighbor {LOCAL[version]} "
        return "".join(it + words + "\n" for words in (
            f"remote-as {LOCAL_AS}", f"port {self.ports[version]}", f"update-source {source}", "disable-connected-check", "timers connect 1"))

    def command(self):
        self.folder.chmod(0o755)
        return [BGPD, "-Z", "-S", "-p", "0", "-P", "0", "-f", self.folder / "conf", "-i", self.folder / "pid", "--vty_socket", self.folder]

    def say(self, *commands):
        return self.ask("vtysh", "--vty_socket", str(self.folder), *(word for command in commands for word in ("-c", command)))

    def rows(self, version):
        dump = json.loads(self.say(f"show bgp ipv{version} unicast json detail") or "{}")
        return sorted(self.row(prefix, path) for prefix, paths in dump.get("routes", {}).items() for path in paths if "aspath" in path)

    @staticmethod
    def row(prefix, path):
        return route(prefix, path.get("addpathRxId", 0), path["nexthops"][0]["ip"], path["origin"], path["aspath"]["string"].split(),
                     path.get("metric"), path.get("locPrf"), path.get("community", {}).get("list", []))

    def flap(self):
        self.say("clear bgp *")

    def refresh(self):
        self.say(f"clear bgp ipv4 unicast {LOCAL[4]} soft in", f"clear bgp ipv6 unicast {LOCAL[6]} soft in")
        return True

    def filter(self):
        self.say("configure terminal", "no ip prefix-list wanted seq 5", "ip prefix-list wanted seq 10 permit 10.0.3.0/24")
        self.say(f"clear bgp ipv4 unicast {LOCAL[4]} in prefix-filter")


class Bird(Daemon):
    """BIRD, as a client of a reflector."""
    name, address, needs = "BIRD", "127.0.0.22", "bird"
    asn, has_numbers = LOCAL_AS, False
    options = {"add_path": True, "extended": True, "enhanced_refresh": True, "client": True}

    def config(self):
        return ("log stderr all;\nrouter id 192.0.2.22;\nprotocol device { }\n"
                + self.protocol(4, self.address, "enable extended messages on; ipv4 { import all; export none; add paths rx; }")
                + self.protocol(6, "::1", "ipv6 { import all; export none; }"))

    def protocol(self, version, source, further):
        return (f"protocol bgp p{version} {{ local {source} port {free_port(source)} as {self.asn}; strict bind on; "
                f"neighbor {LOCAL[version]} port {self.ports[version]} as {LOCAL_AS}; multihop; "
                f"connect delay time 1; error wait time 1, 2; {further}; }}\n")

    def command(self):
        return ["bird", "-f", "-c", self.folder / "conf", "-s", self.folder / "ctl", "-P", self.folder / "pid"]

    def say(self, *words):
        return self.ask("birdc", "-s", str(self.folder / "ctl"), *words)

    def rows(self, version):
        found, prefix = [], None
        for line in self.say(f"show route all protocol p{version}").splitlines():
            if match := re.match(r"(\S*) +(?:unicast|blackhole|unreachable|prohibit) \[", line):
                prefix = match[1] or prefix
                found.append({"prefix": prefix})
            elif match := re.match(r"\tBGP\.(\w+): (.*)", line):
                found[-1][match[1]] = match[2]
        return sorted(self.row(fields) for fields in found)

    @staticmethod
    def row(fields):
        communities = re.findall(r"\((\d+),(\d+)\)", fields.get("community", ""))
        return route(fields["prefix"], 0, fields["next_hop"].split()[0], fields["origin"], fields["as_path"].split(),
                     number_of(fields.get("med")), number_of(fields.get("local_pref")), map(":".join, communities))

    def flap(self):
        self.say("restart", "p4")
        self.say("restart", "p6")

    def refresh(self):
        self.say("reload", "in", "p4")
        self.say("reload", "in", "p6")
        return True


class Gobgp(Daemon):
    """GoBGP, which has neither extended messages nor enhanced refresh, tells no identifiers, and asks for nothing again."""
    name, address, needs = "GoBGP", "127.0.0.23", "gobgpd"
    options, has_numbers = {"add_path": True}, False
    origins = ["igp", "egp", "incomplete"]

    def config(self):
        return (f"[global.config]\nas = {self.asn}\nrouter-id = \"192.0.2.23\"\nport = -1\n"
                + "".join(self.neighbor(version, source) for version, source in ((4, self.address), (6, "::1"))))

    def neighbor(self, version, source):
        return (f"[[neighbors]]\n[neighbors.config]\nneighbor-address = \"{LOCAL[version]}\"\npeer-as = {LOCAL_AS}\n"
                f"[neighbors.transport.config]\nlocal-address = \"{source}\"\nremote-port = {self.ports[version]}\n"
                "[neighbors.ebgp-multihop.config]\nenabled = true\nmultihop-ttl = 64\n"
                "[neighbors.timers.config]\nconnect-retry = 1\nidle-hold-time-after-reset = 1\n"
                f"[[neighbors.afi-safis]]\n[neighbors.afi-safis.config]\nafi-safi-name = \"ipv{version}-unicast\"\n"
                + ("[neighbors.afi-safis.add-paths.config]\nreceive = true\n" if version == 4 else ""))

    def command(self):
        return ["gobgpd", "-t", "toml", "-f", self.folder / "conf", "--api-hosts", f"unix://{self.folder}/api"]

    def say(self, *words):
        return self.ask("gobgp", "--target", f"unix://{self.folder}/api", *words)

    def rows(self, version):
        dump = json.loads(self.say("neighbor", LOCAL[version], "adj-in", "-a", f"ipv{version}", "-j") or "{}")
        return sorted(self.row(prefix, path["attrs"]) for prefix, paths in dump.items() for path in paths)

    def row(self, prefix, attributes):
        by_type = {attribute["type"]: attribute for attribute in attributes}
        path = [f"{{{','.join(map(str, part['asns']))}}}" if part["segment_type"] == 1 else " ".join(map(str, part["asns"]))
                for part in by_type[2].get("as_paths", [])]
        communities = [f"{number >> 16}:{number & 65535}" for number in by_type.get(8, {}).get("communities", [])]
        return route(prefix, 0, by_type.get(3, by_type.get(14))["nexthop"], self.origins[by_type[1].get("value", 0)], path,
                     by_type.get(4, {}).get("metric"), by_type.get(5, {}).get("value"), communities)

    def flap(self):
        """Down and up again: behind a reset it would wait for half a minute."""
        for word in ("disable", "enable"):
            self.say("neighbor", LOCAL[4], word)
            self.say("neighbor", LOCAL[6], word)



# ---- what is told

def told(version, number, mark=0):
    """An event: a path of the speaker's own, and one from elsewhere."""
    own = "0.0.0.0" if version == 4 else "::"
    prefix = f"10.0.{number}.0/24" if version == 4 else f"2001:db8:{number}::/48"
    next_hop = "198.51.100.9" if version == 4 else "2001:db8:ffff::9"
    return (f"paths {prefix} id=1 from=local nh={own} origin=igp as=- med={number % 7} lp={100 + mark} comm=65001:{mark},65001:{number % 3 + 100}"
            f" | id=2 from=p9 nh={next_hop} origin=incomplete as=65029,{64500 + number % 5};{{65030}}")


def all_told(mark=0):
    return [told(version, number, mark) for version, count in COUNT.items() for number in range(count)]


def until(done, what):
    """Waits until it is so; `what` says what isn't where it takes too long."""
    end = time.monotonic() + PATIENCE
    while not done():
        if time.monotonic() > end:
            raise AssertionError(what())
        time.sleep(0.05)


def difference(what, got, wanted):
    lacks, has = set(wanted) - set(got), set(got) - set(wanted)
    return f"{what}: lacks {len(lacks)} {sorted(lacks)[:2]}, has {len(has)} {sorted(has)[:2]}"


class Trial:
    """One daemon beside one live run, with the peers p4 and p6."""

    def __init__(self, live, daemon):
        self.live, self.daemon, self.syncs = live, daemon, 0

    def is_same(self, what):
        """Whether the daemon has what the kept sessions leave, once a `sync` was told."""
        self.live.say("sync")
        self.syncs += 1
        for version in (4, 6):
            messages = int(self.live.synced(f"p{version}", self.syncs).split()[-1])
            wanted = self.kept_rows(version, messages)
            until(lambda: self.daemon.rows(version) == wanted, lambda: difference(f"{what}, IPv{version}", self.daemon.rows(version), wanted))
            if not wanted:
                raise AssertionError(f"{what}, IPv{version}: no route at all")

    def kept_rows(self, version, messages):
        """What `check` reads of the session that is kept, once it has so many messages: a `sync` is told before they came through."""
        session = f"p{version}.{self.live.count('up', f'p{version}')}"
        options = ["--ipv6"] if version == 6 else [f"--{name.replace('_', '-')}" for name in ("add_path", "extended") if name in self.daemon.options]

        def read():
            return self.live.rows(self.live.kept(session), *options)
        until(lambda: int(read()[1].split()[1]) >= messages, lambda: f"{session}: {read()[1]}, and a sync told {messages}")
        rows, _ = read()
        return sorted(of_check(row, self.daemon.has_numbers and version == 4) for row in rows)

    def run(self):
        live, daemon = self.live, self.daemon
        live.say(*all_told())
        daemon.start()
        for peer in ("p4", "p6"):
            live.state("up", peer)
        self.is_same("at the start")
        live.say(*all_told(mark=1)[::2], "withdraw 10.0.1.0/24", "withdraw 2001:db8:1::/48")
        self.is_same("after changes")
        daemon.flap()
        for peer in ("p4", "p6"):
            live.state("up", peer, session=2)
        self.is_same("after a flap")
        live.say("policy p4 some", "policy p6 marked")
        self.is_same("after a change of policy")
        if daemon.refresh():
            for number in (1, 2):
                live.reported("refresh ", number)
            self.is_same("after a refresh")


def config_of(daemon, **options):
    numbers = {"asn": daemon.asn, "identifier": f"192.0.2.{daemon.address.rpartition('.')[2]}"}
    four = peer_text("p4", daemon.address, local=NEXT_HOPS[4], send_community=True, **numbers, **daemon.options, **options)
    client = {"client": True} if "client" in daemon.options else {}
    six = peer_text("p6", "::1", local=NEXT_HOPS[6], family="ipv6", send_community=True, **numbers, **client)
    nine = peer_text("p9", "127.0.0.99", 65029, "192.0.2.99")
    return config_text(four, six, nine, further=POLICIES)


LISTEN = ("--listen", "127.0.0.1:0", "--listen", "[::1]:0", "--passive")


def daemon_has_its_table(kind, program):
    with tempfile.TemporaryDirectory() as folder, Live(program, config_of(kind), *LISTEN) as live:
        daemon = kind(pathlib.Path(folder), {4: live.places[0][1], 6: live.places[1][1]})
        try:
            Trial(live, daemon).run()
            ends_well(live)
        finally:
            daemon.stop()


def frr_sends_a_filter(program):
    """A filter in FRR's own numbers, in place of one that it sent before."""
    with tempfile.TemporaryDirectory() as folder, Live(program, config_of(Frr, orf="frr"), *LISTEN) as live:
        daemon = Frr(pathlib.Path(folder), {4: live.places[0][1], 6: live.places[1][1]})
        daemon.has_filter = True
        try:
            live.say(*all_told())
            daemon.start()
            live.state("up", "p4")
            live.state("up", "p6")
            trial = Trial(live, daemon)
            trial.is_same("at the start")
            daemon.filter()
            until(lambda: {row[0] for row in daemon.rows(4)} == {"10.0.3.0/24"}, lambda: f"the filter leaves {daemon.rows(4)[:3]}")
            trial.is_same("with a filter")
            ends_well(live)
        finally:
            daemon.stop()


def ends_well(live):
    """Ctrl-C, a run that ends with 0 without refused lines, and an audit of what was kept that ends with 0."""
    status = live.end(), live.state("run ended")["status"], live.state("audit")["status"], live.report.lines[-1].split()[2:]
    if status != (0, 0, 0, ["refused", "0"]):
        raise AssertionError(f"the end: {status}")


def knows_frr_filters(program):
    """Whether the program has `orf = "frr"`."""
    with tempfile.NamedTemporaryFile("w", suffix=".toml") as file:
        file.write(config_of(Frr, orf="frr"))
        file.flush()
        return subprocess.run([program, "groups", file.name], capture_output=True, check=False).returncode == 0


def has_ipv6():
    try:
        return free_port("::1") > 0
    except OSError:
        return False


def tests_of(program):
    """Name and test of each that can be tried here; the others are said."""
    if not has_ipv6():
        return print("passed over, for want of IPv6: live sessions with daemons")
    for kind in (Frr, Bird, Gobgp):
        if shutil.which(kind.needs) is None:
            print(f"passed over, for want of {os.path.basename(kind.needs)}: live sessions with {kind.name}")
            continue
        yield kind.name, lambda kind=kind: daemon_has_its_table(kind, program)
        if kind is Frr and knows_frr_filters(program):
            yield "filters of FRR", lambda: frr_sends_a_filter(program)
        elif kind is Frr:
            print('passed over, since the program has no orf = "frr": filters of FRR')


def passes(name, test):
    begun = time.monotonic()
    try:
        test()
    except Exception as fault:
        print(f"live sessions, {name}: {type(fault).__name__} {fault}")
        traceback.print_exc()
        return False
    if "TIMES" in os.environ:
        print(f"{name}: {time.monotonic() - begun:.1f} s")
    return True


def main():
    program, *names = sys.argv[1:]
    tests = [(name, test) for name, test in tests_of(program) if not names or name in names]
    with concurrent.futures.ThreadPoolExecutor() as pool:
        passed = sum(pool.map(lambda named: passes(*named), tests))
    print(f"{passed} passed, {len(tests) - passed} failed")
    sys.exit(passed < len(tests))


if __name__ == "__main__":
    main()
