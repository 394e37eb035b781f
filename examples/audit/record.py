#!/usr/bin/env python3
"""Records a day of a real speaker: starts it on addresses of the loopback device, lets neighbors tell routes, flap and ask again, and captures all.

    record.py frr|bird FOLDER

FOLDER gets `capture.pcap`, `config.toml` and `also`, from which bridges/audit_of_pcap.py makes the rest. It needs to be root, in a network
namespace of its own that it makes, with FRR or BIRD and tcpdump (Debian: frr, bird2, tcpdump). What neighbors say follows from a fixed
number; when they say it does not, so that each day is another one.
"""
import os
import random
import subprocess
import sys
import tempfile
import time

from daemons import ADDED, CLUSTER, DAEMONS, DROPPED, INNER, LATER, LOCAL, MED, OWN, ROUTER_ID
from neighbors import REFRESH, Neighbor, announcement, withdrawal

OUTSIDE, INSIDE = "203.0.113.", "198.51.100."


class Peer:
    """A neighbor of the day, and what the speaker's configuration says of it."""

    def __init__(self, name, place, asn, is_client=False, add_path=False, has_policy=False, as_override=False, enhanced_refresh=False):
        net = INSIDE if asn == LOCAL else OUTSIDE
        self.name, self.asn, self.address, self.local, self.subnet = name, asn, f"{net}{place}", net + "1", net + "0/24"
        self.router_id = f"10.0.1.{place}"
        self.is_client, self.add_path, self.has_policy, self.as_override = is_client, add_path, has_policy, as_override
        self.enhanced_refresh = enhanced_refresh
        self.neighbor = Neighbor(self.address, asn, self.router_id, add_path, enhanced_refresh)
        self.announced = set()

    def fields(self):
        lines = ["", "[[peer]]", f'name = "{self.name}"', f"as = {self.asn}", f'router_id = "{self.router_id}"', f'address = "{self.address}"',
                 f'local_address = "{self.local}"', f'subnet = "{self.subnet}"', "send_community = true"]
        lines += ["client = true"] if self.is_client else []
        lines += ["add_path = true"] if self.add_path else []
        lines += ["enhanced_refresh = true"] if self.enhanced_refresh else []
        lines += ['policy = "policy"', "remove_private_as = true"] if self.has_policy else []
        return lines + (["as_override = true"] if self.as_override else [])


SENDERS = [Peer("transit1", 21, 64500), Peer("transit2", 22, 64510), Peer("core", 23, LOCAL), Peer("branch", 24, LOCAL, is_client=True)]
RECEIVERS = {"frr": [Peer("client1", 31, LOCAL, is_client=True), Peer("inner", 33, LOCAL), Peer("cust1", 41, 65101, enhanced_refresh=True),
                     Peer("cust2", 42, 65102, has_policy=True), Peer("cust3", 43, 65103), Peer("cust4", 44, 64500, as_override=True)],
             "bird": [Peer("client1", 31, LOCAL, is_client=True), Peer("client2", 32, LOCAL, is_client=True, add_path=True), Peer("inner", 33, LOCAL),
                      Peer("cust1", 41, 65101, enhanced_refresh=True), Peer("cust2", 42, 65102, has_policy=True), Peer("cust3", 43, 65103),
                      Peer("cust4", 44, 65104, add_path=True)]}
POOL = [f"10.{i}.{j}.0/24" for i in (0, 1, 2, 140) for j in range(9)] + [f"198.18.{j}.0/24" for j in range(12)] + [f"10.{i}.0.0/16" for i in range(1, 6)]
TAILS = [(3356,), (174, 3356), (64512, 3356), (3356, 64513), (), (6939, 4200000001)]
COMMUNITIES = [DROPPED, (64500, 1), (3, 9), (65001, 9), (65535, 65281), (9, 9)]


def config():
    """The configuration for `audit`."""
    return "\n".join(
        ["[local]", f"as = {LOCAL}", f'router_id = "{ROUTER_ID}"', f'cluster_id = "{CLUSTER}"', "",
         "[[prefix_list]]", 'name = "through"',
         f'entry = [{{seq = 5, action = "deny", prefix = "{INNER}", le = 32}}, {{seq = 10, action = "permit", prefix = "0.0.0.0/0", le = 32}}]', "",
         "[[route_map]]", 'name = "map"', 'entry = [{seq = 5, action = "deny", match_community = "%d:%d"},' % DROPPED,
         '  {seq = 10, action = "permit", match_prefix_list = "through", set_med = %d, add_communities = ["%d:%d"]}]' % ((MED,) + ADDED), "",
         "[[policy]]", 'name = "policy"', 'route_map = "map"'])


class Day:
    def __init__(self, kind, folder, work):
        self.kind, self.folder = kind, folder
        self.peers = SENDERS + RECEIVERS[kind]
        self.by_name = {peer.name: peer for peer in self.peers}
        self.daemon = DAEMONS[kind](work, self.peers)
        self.dice = random.Random(11)
        self.also = [f"+0 paths {OWN} id=1 from=local nh=0.0.0.0 " + ("origin=igp as=- med=0" if kind == "frr" else "origin=igp as=-")]

    def up(self, *names):
        for name in names:
            self.by_name[name].neighbor.up(self.by_name[name].local)

    def attributes(self, peer):
        """Drawn attributes of a route, such as this neighbor may tell."""
        dice, net = self.dice, peer.address.rsplit(".", 1)[0]
        is_internal = peer.asn == LOCAL
        head = () if is_internal else (peer.asn,)
        numbers = head + dice.choice(TAILS)
        path = ([numbers] if numbers else []) + ([{100, 200}] if dice.random() < .1 else [])
        return {"next_hop": dice.choice([peer.address, peer.address, f"{net}.{dice.randint(60, 64)}"]), "path": path, "origin": dice.choice([0, 0, 0, 1, 2]),
                "med": dice.choice([0, 10, 20]) if dice.random() < .4 else None,
                "local_pref": dice.choice([100, 100, 150, 90]) if is_internal else None,
                "communities": dice.sample(COMMUNITIES, dice.randint(1, 3)) if dice.random() < .5 else (),
                "aggregator": (65100, "172.16.0.1") if dice.random() < .1 else None,
                **({"originator": "10.0.9.9", "clusters": ["10.0.9.1"]} if is_internal and dice.random() < .2 else {})}

    def step(self):
        """A neighbor announces or withdraws a few prefixes."""
        peer = self.dice.choice(SENDERS)
        if peer.announced and self.dice.random() < .3:
            prefixes = self.dice.sample(sorted(peer.announced), min(len(peer.announced), self.dice.randint(1, 3)))
            peer.announced -= set(prefixes)
            peer.neighbor.say(withdrawal(prefixes))
        else:
            prefixes = self.dice.sample(POOL, self.dice.randint(1, 4))
            peer.announced |= set(prefixes)
            peer.neighbor.say(announcement(prefixes, **self.attributes(peer)))

    def churn(self, steps, pause):
        for _ in range(steps):
            self.step()
            time.sleep(pause * 2 * self.dice.random())

    def change_policy(self):
        self.daemon.change_policy()
        self.also.append(f"{time.time():.6f} list through 3:permit:{LATER}:le=32 5:deny:{INNER}:le=32 10:permit:0.0.0.0/0:le=32")

    def live(self):
        """The day."""
        receivers = [peer.name for peer in RECEIVERS[self.kind]]
        self.up(*(peer.name for peer in SENDERS), *receivers[:3])
        self.churn(50, .05)
        self.up(*receivers[3:])
        self.churn(30, .1)
        self.by_name["cust3"].neighbor.down()
        self.churn(10, .05)
        self.up("cust3")
        self.churn(20, .05)
        time.sleep(3)
        # Asked again while best paths change: FRR answers half a second later.
        for _ in range(4):
            self.by_name["client1"].neighbor.say(REFRESH)
            self.by_name["cust1"].neighbor.say(REFRESH)
            self.churn(30, .02)
            time.sleep(1)
        time.sleep(3)
        self.change_policy()
        time.sleep(3)
        self.churn(30, .1)
        time.sleep(5)
        for name in receivers:
            self.by_name[name].neighbor.down()
        time.sleep(.5)

    def record(self):
        capture = subprocess.Popen(["tcpdump", "-i", "lo", "-U", "-Z", "root", "-w", self.folder + "/capture.pcap", "tcp port 179"], stderr=subprocess.DEVNULL)
        time.sleep(1.5)
        self.daemon.start()
        try:
            self.live()
        finally:
            self.daemon.stop()
            time.sleep(1)
            capture.terminate()
            capture.wait()
        with open(self.folder + "/config.toml", "w") as file:
            file.write("\n".join([config()] + [line for peer in self.peers for line in peer.fields()]) + "\n")
        with open(self.folder + "/also", "w") as file:
            file.write("\n".join(self.also) + "\n")


def main():
    if len(sys.argv) != 3 or sys.argv[1] not in DAEMONS:
        sys.exit(__doc__)
    if os.environ.get("IN_NAMESPACE") != "1":
        os.execvpe("unshare", ["unshare", "-n", sys.executable, os.path.abspath(__file__), sys.argv[1], os.path.abspath(sys.argv[2])],
                   {**os.environ, "IN_NAMESPACE": "1"})
    os.makedirs(sys.argv[2], exist_ok=True)
    for words in (["link", "set", "lo", "up"], ["addr", "add", OUTSIDE + "1/24", "dev", "lo"], ["addr", "add", INSIDE + "1/24", "dev", "lo"]):
        subprocess.run(["ip", *words], check=True)
    with tempfile.TemporaryDirectory() as work:
        Day(sys.argv[1], sys.argv[2], work).record()


if __name__ == "__main__":
    main()
