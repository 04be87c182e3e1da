"""Follows every way from an origin, through the policy of each router on it."""
from collections import namedtuple

from bgpnet.configs.places import Passed, refusal
from bgpnet.configs.routes import Denial
from bgpnet.network import LONGEST_PATH

# How many times a route is told and judged for all prefixes of a set, and of one of which something is refused.
MOST_STEPS, MOST_BESIDE = 1_000_000, 100_000

# A way that a route took, from the router that has it to the origin, with its attributes there.
Way = namedtuple("Way", "path route")


def crossed(routers, prefix, way, peer):
    """The route of a peer to which a router tells its way, or why it has none."""
    teller, listener = routers.ends[way.path[0]][peer], routers.ends[peer][way.path[0]]
    route = teller.router.told(teller.neighbor, listener, prefix, way)
    return route if isinstance(route, Denial) else listener.router.heard(listener.neighbor, teller, prefix, route)


class Follower:
    """Follows the ways of the prefixes of a set; those that go alike are followed once. `reasons` is where it is kept
    why ways are refused.

    `with_notes` asks for the line of each attribute, and for `denials`: of each prefix the denial of each way that ends
    in one."""

    def __init__(self, routers, reasons, with_notes=False):
        self.set, self.reasons, self.with_notes, self.steps, self.known = routers, reasons, with_notes, 0, {}
        self.denied, self.denials = {}, {}

    def alike(self, prefix, router, network):
        """What tells prefixes apart: how the origin announces them, and what the policies of all routers ask."""
        return router.number, router.announced(network), tuple(
            one.asked_of(prefix) for one in self.set.routers.values() if one.is_sound)

    def ways(self, prefix, router, network):
        """The ways of each router for a prefix that its origin announces."""
        key = self.alike(prefix, router, network)
        if key not in self.known:
            self.denied = {}
            self.known[key] = self.follow(prefix, router, network), self.denied
        ways, self.denials[prefix] = self.known[key]
        return ways

    def follow(self, prefix, origin, network):
        found = {asn: [] for asn in self.set.routers}
        own = origin.own_route(network, {} if self.with_notes else None)
        found[origin.number].append(Way((origin.number,), own))
        ways = [found[origin.number][0]]
        for way in ways:
            for peer in self.set.up[way.path[0]]:
                more = self.step(prefix, way, peer, own)
                if more is not None:
                    ways.append(more)
                    found[peer].append(more)
        return found

    def step(self, prefix, way, peer, own):
        """The way on to a peer, or None where it is denied, or refused."""
        self.steps += 1
        if self.set.reasons and self.steps > MOST_BESIDE:
            raise Passed
        if self.steps > MOST_STEPS:
            raise refusal(self.set.routers[way.path[0]].place,
                          f"more than {MOST_STEPS} steps of ways were followed, and there are more: --prefix takes "
                          "some prefixes, and filters make ways fewer")
        return self.reasons.attempt(self.way_on, prefix, way, peer, own)

    def way_on(self, prefix, way, peer, own):
        """The way on to a peer, or None where it is denied."""
        listener = self.set.ends[peer][way.path[0]]
        route = crossed(self.set, prefix, way, peer)
        if isinstance(route, Denial):
            if self.with_notes:
                self.denied[(peer,) + way.path] = route
            return None
        if peer in way.path:
            self.check_return(prefix, (peer,) + way.path, route, own, listener)
            return None
        if len(way.path) == LONGEST_PATH:
            raise refusal(listener.neighbor.place, f"{prefix}: {self.set.path_label((peer,) + way.path)} is permitted, "
                                                   f"and a path has at most {LONGEST_PATH} routers")
        return Way((peer,) + way.path, route)

    def check_return(self, prefix, path, route, own, listener):
        """Refuses a way that comes back to a router; at the origin it is nothing as long as the own route is better."""
        if path[0] != path[-1]:
            raise refusal(self.exclusion(prefix, path), f"{prefix}: {self.set.path_label(path)} is permitted, and "
                          f"passes {self.set.label(path[0])} twice: its AS is excluded from the path, so that the way "
                          "is not seen to be a loop")
        if not listener.router.prefers_own(own, route):
            raise refusal(listener.neighbor.place, f"{prefix}: the origin {self.set.label(path[0])} likes "
                                                   f"{self.set.path_label(path)} better than its own "
                                                   f"route{listener.router.against(own, route)}")

    def exclusion(self, prefix, path):
        """The line by which the first router of a way was last excluded from it."""
        router = self.set.routers[path[-1]]
        way = Way(path[-1:], router.own_route(router.networks[prefix], {}))
        for at in reversed(range(len(path) - 1)):
            way = Way(path[at:], crossed(self.set, prefix, way, path[at]))
        return way.route.notes["excluded", self.set.routers[path[0]].asn][-1]
