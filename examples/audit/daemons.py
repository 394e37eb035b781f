"""FRR and BIRD from their Debian packages, started with the neighbors of a day."""
import os
import subprocess
import time

LOCAL, ROUTER_ID, CLUSTER = 65001, "10.0.0.1", "10.0.0.100"
OWN = "10.200.0.0/16"
# The peer with a policy: a community that is dropped, prefixes that are let through, and what is set.
DROPPED, ADDED, MED = (64500, 666), (65001, 2), 77
INNER, LATER = "10.0.0.0/9", "10.1.0.0/16"


class Frr:
    """FRR's bgpd and zebra (Debian: frr)."""

    NAME, VERSION = "frr", ["dpkg-query", "-W", "-f", "${Version}", "frr"]

    def __init__(self, folder, peers):
        self.folder, self.peers, self.running = folder, peers, []

    def text(self):
        lines = ["frr defaults traditional", "hostname frr", f"log file {self.folder}/frr.log",
                 "bgp route-map delay-timer 1",
                 "bgp community-list standard dropped seq 5 permit %d:%d" % DROPPED,
                 f"ip prefix-list through seq 5 deny {INNER} le 32", "ip prefix-list through seq 10 permit 0.0.0.0/0 le 32",
                 "route-map policy deny 5", " match community dropped",
                 "route-map policy permit 10", " match ip address prefix-list through", f" set metric {MED}", " set community %d:%d additive" % ADDED,
                 f"router bgp {LOCAL}", f" bgp router-id {ROUTER_ID}", f" bgp cluster-id {CLUSTER}", " no bgp ebgp-requires-policy",
                 " no bgp network import-check", " no bgp suppress-duplicates", " bgp deterministic-med"]
        for peer in self.peers:
            lines += [f" neighbor {peer.address} remote-as {peer.asn}", f" neighbor {peer.address} passive"]
        lines += [" address-family ipv4 unicast", f"  network {OWN}"]
        options = {"is_client": ["route-reflector-client"], "add_path": ["addpath-tx-all-paths"], "as_override": ["as-override"],
                   "has_policy": ["route-map policy out", "remove-private-AS all"]}
        for peer in self.peers:
            lines += [f"  neighbor {peer.address} {words}" for option, said in options.items() if getattr(peer, option) for words in said]
        return "\n".join(lines + [" exit-address-family"]) + "\n"

    def start(self):
        with open(self.folder + "/frr.conf", "w") as file:
            file.write(self.text())
        subprocess.run(["chmod", "-R", "777", self.folder], check=True)
        common = ["-z", self.folder + "/zserv", "--vty_socket", self.folder, "-P", "0"]
        self.begin("/usr/lib/frr/zebra", "-i", self.folder + "/zebra.pid", "-f", "/dev/null", *common)
        time.sleep(1.5)
        self.begin("/usr/lib/frr/bgpd", "-n", "-S", "-i", self.folder + "/bgpd.pid", "-f", self.folder + "/frr.conf", *common)

    def begin(self, *words):
        with open(f"{self.folder}/{os.path.basename(words[0])}.out", "w") as out:
            self.running.append(subprocess.Popen(words, stdout=out, stderr=subprocess.STDOUT))

    def change_policy(self):
        """A prefix more is let through to the peer with a policy."""
        subprocess.run(["vtysh", "--vty_socket", self.folder, "-d", "bgpd", "-c", "configure terminal",
                        "-c", f"ip prefix-list through seq 3 permit {LATER} le 32"], check=True, stdout=subprocess.DEVNULL)

    def stop(self):
        for process in reversed(self.running):
            process.terminate()
            process.wait(10)


class Bird:
    """BIRD (Debian: bird2)."""

    NAME, VERSION = "bird", ["dpkg-query", "-W", "-f", "${Version}", "bird2"]

    def __init__(self, folder, peers):
        self.folder, self.peers, self.running = folder, peers, []

    def text(self, is_changed):
        private = "bgp_path.delete([64512..65534, 4200000000..4294967294]);"
        set_all = f"bgp_med = {MED}; bgp_community.add({ADDED}); {private} accept;"
        through = f"  if net ~ [{LATER}+] then {{ {set_all} }}\n" if is_changed else ""
        # Without the routes of the device BIRD couldn't reach the next hops that internal neighbors tell.
        lines = [f'log "{self.folder}/bird.log" all;', f"router id {ROUTER_ID};", "protocol device { }", "protocol direct { ipv4; }",
                 "filter all_routes {", "  if source = RTS_DEVICE then reject;", "  accept;", "}",
                 f"protocol static own {{ ipv4; route {OWN} blackhole; }}",
                 "filter policy {", "  if source = RTS_DEVICE then reject;", f"  if {DROPPED} ~ bgp_community then reject;",
                 through + f"  if net ~ [{INNER}+] then reject;", f"  {set_all}", "}"]
        for peer in self.peers:
            lines += [f"protocol bgp {peer.name} {{", f"  local {peer.local} as {LOCAL};", f"  neighbor {peer.address} as {peer.asn};", "  passive on;"]
            lines += ["  rr client;"] if peer.is_client else []
            lines += [f"  rr cluster id {CLUSTER};"] if peer.asn == LOCAL else ["  direct;"]
            exported = "policy" if peer.has_policy else "all_routes"
            lines += [f"  ipv4 {{ import all; export filter {exported};{' add paths tx;' if peer.add_path else ''} }};", "}"]
        return "\n".join(lines) + "\n"

    def write(self, is_changed):
        with open(self.folder + "/bird.conf", "w") as file:
            file.write(self.text(is_changed))

    def start(self):
        self.write(False)
        with open(self.folder + "/bird.out", "w") as out:
            self.running.append(subprocess.Popen(["/usr/sbin/bird", "-f", "-c", self.folder + "/bird.conf", "-s", self.folder + "/control",
                                                  "-P", self.folder + "/pid"], stdout=out, stderr=subprocess.STDOUT))

    def change_policy(self):
        self.write(True)
        subprocess.run(["birdc", "-s", self.folder + "/control", "configure"], check=True, stdout=subprocess.DEVNULL)

    def stop(self):
        for process in self.running:
            process.terminate()
            process.wait(10)


DAEMONS = {"frr": Frr, "bird": Bird}
