"""Which path a speaker takes for best: the decision process of RFC 4271 section 9.1, with the steps that FRR and BIRD have of their own.

A step takes the paths that are left, and the one that was best before, and leaves some of them. What a capture doesn't show is taken for
equal: weights, the distance to next hops (step e), and whether they can be reached.
"""
import ipaddress


class Path:
    """A path that a neighbor told, or one of the speaker's own where there is no neighbor. Its route changes while the neighbor says so."""

    def __init__(self, neighbor, route, identifier=0):
        self.neighbor, self.route, self.identifier = neighbor, route, identifier

    def is_own(self):
        return self.neighbor is None

    def is_external(self):
        return self.neighbor is not None and self.neighbor.is_external


class Neighbor:
    def __init__(self, peer, local_as):
        self.name, self.asn, self.is_external = peer["name"], peer["as"], peer["as"] != local_as
        self.router_id, self.address = ipaddress.ip_address(peer["router_id"]), ipaddress.ip_address(peer["address"])


def best(paths, before, steps):
    """The best of these paths."""
    for step in steps:
        if len(paths) > 1:
            paths = step(paths, before)
    return paths[0]


def least(paths, measure):
    lowest = min(map(measure, paths))
    return [path for path in paths if measure(path) == lowest]


# ---- the steps

def own_first(paths, before):
    """The speaker's own: in FRR they have weight 32768 (bgpd/bgp_route.c, bgp_path_info_cmp 1), in BIRD static routes a higher preference than
    those of BGP (nest/protocol.h, DEF_PREF_STATIC and DEF_PREF_BGP)."""
    return [path for path in paths if path.is_own()][:1] or paths


def highest_local_pref(paths, before):
    """RFC 4271 section 9.1.1; 100 where a neighbor told none."""
    return least(paths, lambda path: -(100 if path.route.local_pref is None else path.route.local_pref))


def shortest_as_path(paths, before):
    """RFC 4271 section 9.1.2.2 a."""
    return least(paths, lambda path: path.route.length())


def lowest_origin(paths, before):
    """RFC 4271 section 9.1.2.2 b."""
    return least(paths, lambda path: path.route.origin)


def lowest_med_of_each_as(paths, before):
    """RFC 4271 section 9.1.2.2 c: of paths by the same neighboring AS those of the lowest MED, 0 where there is none; paths without an AS
    are of one AS. FRR with `bgp deterministic-med`, BIRD with `deterministic med`: without these both compare in pairs, by the order of arrival."""
    lowest = {}
    for path in paths:
        first, med = path.route.first_as(), path.route.med or 0
        lowest[first] = min(med, lowest.get(first, med))
    return [path for path in paths if (path.route.med or 0) == lowest[path.route.first_as()]]


def external_first(paths, before):
    """RFC 4271 section 9.1.2.2 d."""
    return [path for path in paths if path.is_external()] or paths


def oldest_external(paths, before):
    """FRR without `bgp bestpath compare-routerid`: among external paths the one that was best before stays (bgp_path_info_cmp 10)."""
    if all(path.is_external() for path in paths):
        return [path for path in paths if path is before] or paths
    return paths


def lowest_router_id(paths, before):
    """RFC 4271 section 9.1.2.2 f, and RFC 4456 section 9: ORIGINATOR_ID in place of the neighbor's router id, where it is there."""
    return least(paths, lambda path: ipaddress.ip_address(path.route.originator) if path.route.originator else path.neighbor.router_id)


def shortest_cluster_list(paths, before):
    """RFC 4456 section 9."""
    return least(paths, lambda path: len(path.route.clusters))


def lowest_address(paths, before):
    """RFC 4271 section 9.1.2.2 g; and of one neighbor's paths the lowest identifier."""
    return least(paths, lambda path: (path.neighbor.address, path.identifier))


COMMON = [own_first, highest_local_pref, shortest_as_path, lowest_origin, lowest_med_of_each_as, external_first]
TIES = [lowest_router_id, shortest_cluster_list, lowest_address]
STEPS = {"frr": COMMON + [oldest_external] + TIES, "bird": COMMON + TIES}


# ---- what a speaker takes, and how it keeps it

def is_loop(route, neighbor, local):
    """RFC 4271 section 9.1.2, the speaker's own AS in the AS path; RFC 4456 section 8, its router id or its cluster."""
    if any(local["as"] in numbers for _, numbers in route.segments):
        return True
    cluster = local.get("cluster_id", local["router_id"])
    return not neighbor.is_external and (route.originator == local["router_id"] or cluster in route.clusters)


def taken(route, neighbor):
    """What an external neighbor may not say is passed over: LOCAL_PREF (RFC 4271 section 5.1.5), ORIGINATOR_ID and CLUSTER_LIST (RFC 4456
    section 8)."""
    if neighbor.is_external:
        route.local_pref = route.originator = None
        route.clusters = []
    return route


def with_med_zero(route, neighbor):
    """FRR 8.4.4, as seen: an internal neighbor's route without MED and ORIGINATOR_ID is told with MED 0. No standard says so."""
    if not neighbor.is_external and route.med is None and route.originator is None:
        route.med = 0
    return route
