"""What a router of FRR tells the routers of its own AS, and hears of them: iBGP (RFC 4271 section 5.1, RFC 4456)."""
from collections import namedtuple

from bgpnet.configs.communities import NO_ADVERTISE
from bgpnet.configs.places import refusal
from bgpnet.configs.route import filtered, looped, mapped, sent, weigh
from bgpnet.configs.routes import Denial, denied_by
from bgpnet.configs.sessions import dotted

# How a route came to its router: by a neighbor of another AS, by a client of its own, or by another of its AS.
EXTERNAL, CLIENT, INTERNAL = "external", "client", "internal"
# What a router knows of a route that a neighbor told: how it came, the neighbor's router id and address, the other end,
# and the metric of the IGP to the next hop.
Heard = namedtuple("Heard", "kind id address teller metric")

REFLECTION, OUT_POLICY = "bgp client-to-client reflection", "bgp route-reflector allow-outbound-policy"


def is_reflected(route):
    """Whether it takes a reflector to tell a route on in the AS."""
    return route.heard is not None and route.heard.kind != EXTERNAL


def kept_from(router, neighbor, route):
    """The denial of a route that is not told on in the AS, or None."""
    if NO_ADVERTISE in route.communities:
        return denied_by(NO_ADVERTISE, route, neighbor.place)
    if not is_reflected(route):
        return None
    is_client = neighbor.value("route-reflector-client", False)
    if route.heard.kind == INTERNAL and not is_client:
        return Denial(neighbor.place, "the route came by iBGP, and neither neighbor is a client")
    reflection = router.options.get(REFLECTION)
    if route.heard.kind == CLIENT and is_client and reflection and not reflection.name:
        return Denial(reflection.place, "no reflection from client to client")
    return None


def told(router, neighbor, prefix, held):
    """The route that a router tells a neighbor of its own AS of one in its table, or why it tells none.

    LOCAL_PREF goes along. A route of the AS is told by a reflector alone, whose out-map may deny it and changes nothing
    of it, unless a line says so; next-hop-self does not change it, unless it is forced."""
    if denial := kept_from(router, neighbor, held) or filtered(router, neighbor, "out", prefix, held.path):
        return denial
    route, reflects = held.copy(), is_reflected(held)
    if not route.has_preference:
        route.preference, route.has_preference = router.default_preference, True
        if router.default_line:
            route.note("local-pref", router.default_line[0])
    if reflects and route.originator is None:
        route.originator = route.heard.id
        if not route.has_med:  # FRR 8.4 marks MED as there where it means ORIGINATOR_ID
            route.med, route.has_med = 0, True
            route.note("med", f"{neighbor.place} reflected without MED")
    changed = route.copy() if reflects and not router.option(OUT_POLICY) else route
    if denial := mapped(router, neighbor, "out", prefix, changed):
        return denial
    if reflects:
        route.clusters = (router.cluster,) + route.clusters
    if neighbor.value("next-hop-self force", False) or neighbor.value("next-hop-self", False) and not reflects:
        route.next_hop = None
    return sent(neighbor, route)


def heard(router, neighbor, far, prefix, route):
    """The route that comes into a router's table of one that a neighbor of its own AS tells; or why none comes."""
    if denial := looped(router, neighbor, route):
        return denial
    if route.originator == router.router_id.name:
        return Denial(neighbor.place, f"ORIGINATOR_ID is {dotted(route.originator)}, the router's own")
    if router.cluster in route.clusters:
        return Denial(neighbor.place, f"CLUSTER_LIST has {dotted(router.cluster)}, the router's own cluster")
    if denial := filtered(router, neighbor, "in", prefix, route.path):
        return denial
    weigh(neighbor, route)
    return mapped(router, neighbor, "in", prefix, route) or reached(router, neighbor, far, route)


def reached(router, neighbor, far, route):
    """The route with what its router knows of it; or why its next hop is none."""
    if route.next_hop is None:
        route.next_hop = neighbor.address
    is_external = far.router.asn != router.asn
    if router.reach.is_own(route.next_hop):
        return Denial(neighbor.place, f"the next hop {dotted(route.next_hop)} is the router's own address")
    is_near = is_external and is_direct(router, neighbor)
    covering = None if is_near else router.reach.covering(route.next_hop)
    if covering:
        raise refusal(neighbor.place, f"the next hop {dotted(route.next_hop)} lies in {covering}, which BGP announces: "
                                      "whether it is reached hangs on routes of BGP")
    metric = router.reach.metric(route.next_hop, is_near)
    if metric is None:
        return Denial(neighbor.place, f"the next hop {dotted(route.next_hop)} is not reached")
    kind = EXTERNAL if is_external else CLIENT if neighbor.value("route-reflector-client", False) else INTERNAL
    route.heard = Heard(kind, far.id, neighbor.address, far.router.number, metric)
    return route


def is_direct(router, neighbor):
    """Whether a neighbor of another AS has to be connected."""
    return neighbor.value("ebgp-multihop", 1) == 1 and neighbor.value("ttl-security", 1) == 1 and not (
        neighbor.value("disable-connected-check", False) or router.option("bgp disable-ebgp-connected-route-check"))


def leaving(router, neighbor, route):
    """The route that a router tells a neighbor of another AS, by its next hop: the router itself, or a third party on a
    subnet that the neighbor is on too (RFC 4271 section 5.1.3)."""
    if neighbor.value("next-hop-self") or neighbor.value("next-hop-self force") or (
            route.next_hop is not None and not router.reach.is_shared(route.next_hop, neighbor.address)):
        route.next_hop = None
    route.originator, route.clusters, route.heard = None, (), None
    return route


def shown(route):
    """What FRR shows of a route besides its other attributes."""
    return {"next hop": "0.0.0.0" if route.next_hop is None else dotted(route.next_hop),
            "metric": route.heard.metric if route.heard else 0,
            "originator": None if route.originator is None else dotted(route.originator),
            "clusters": list(map(dotted, route.clusters))}
