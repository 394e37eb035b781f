"""What a live run needs to know of the configuration. Whether it is one is asked of the program; here it is only read."""
import dataclasses
import ipaddress
import tomllib

IPV4, IPV6 = 1, 2


@dataclasses.dataclass(frozen=True)
class Speaker:
    """The local side of each session. `policies` are the names that a `policy` line may give, `-` being none."""
    asn: int
    identifier: ipaddress.IPv4Address
    coalesce: int
    slow_after: int
    policies: frozenset


@dataclasses.dataclass(frozen=True)
class Peer:
    """A neighbor as it should be. `afi` is the address family identifier of its routes (RFC 4760)."""
    name: str
    asn: int
    identifier: ipaddress.IPv4Address
    afi: int
    address: ipaddress.IPv4Address | ipaddress.IPv6Address
    local_address: ipaddress.IPv4Address | ipaddress.IPv6Address
    add_path: bool
    extended: bool
    enhanced_refresh: bool
    orf: bool | str
    policy: str


def peer_of(table):
    return Peer(
        name=table["name"], asn=table["as"], identifier=ipaddress.IPv4Address(table["router_id"]),
        afi=IPV6 if table.get("family") == "ipv6" else IPV4,
        address=ipaddress.ip_address(table["address"]), local_address=ipaddress.ip_address(table["local_address"]),
        add_path=table.get("add_path", False), extended=table.get("extended", False),
        enhanced_refresh=table.get("enhanced_refresh", False), orf=table.get("orf", False), policy=table.get("policy", "-"))


def read(path):
    """The speaker and its peers."""
    with open(path, "rb") as file:
        document = tomllib.load(file)
    local = document["local"]
    policies = frozenset(["-", *(policy["name"] for policy in document.get("policy", []))])
    speaker = Speaker(local["as"], ipaddress.IPv4Address(local["router_id"]), local.get("coalesce", 1), local.get("slow_after", 16), policies)
    return speaker, [peer_of(table) for table in document.get("peer", [])]


def shared_addresses(peers):
    """Peers that can't be told apart: pairs of names with one address."""
    first = {}
    return [(first[peer.address], peer.name) for peer in peers if first.setdefault(peer.address, peer.name) != peer.name]
