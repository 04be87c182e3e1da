"""Prefixes that several routers announce: in the network one router more stands behind them, which originates."""
from collections import namedtuple

from bgpnet.configs.router import Line, Neighbor, Network
from bgpnet.configs.routes import Route
from bgpnet.configs.speaker import Speaker
from bgpnet.program import grouped

# The AS number of such a router, which no AS has, and the first of the router ids that they get (RFC 5737).
NOBODY, FIRST_ID = 0, 192 << 24 | 2 << 8
# An order of one way.
Alone = namedtuple("Alone", "ways ties")


class Origins(Speaker):
    """Stands behind routers that announce the same prefixes. Each of them hears its own route from it, and tells it
    none that it takes."""

    language, is_origins = "FRR", True

    def __init__(self, routers, prefixes, number, at):
        first = routers[0].networks[prefixes[0]]
        super().__init__(str(first.place))
        self.origins, self.given, self.asn, self.place = routers, number, NOBODY, first.place
        self.host = f"origins{at}" if at > 1 else "origins"
        self.router_id = Line(FIRST_ID + at, first.place)
        self.networks = {prefix: Network(prefix, None, first.place, 0) for prefix in prefixes}

    def neighbor(self):
        """What it is as a neighbor, and what each of its routers is to it: one without an address."""
        return Neighbor(None, None, self.place, True)

    def own_route(self, network, notes=None):
        return Route(notes=notes)

    def told(self, neighbor, far, prefix, way):
        return way.route.copy()

    def announced(self, network):
        return tuple(router.announced(router.networks[network.prefix]) for router in self.origins)

    def asked_of(self, prefix):
        return ()

    def order(self, routers, prefix, ways):
        return Alone(ways, [])

    def may_keep(self, routers, prefix, ways, kept):
        return True

    def prefers_own(self, own, route):
        return True

    def preference(self, route):
        return route.preference, None


def origins_of(routers, number):
    """A router for each group of routers of FRR that announce the same prefixes, numbered from a number on."""
    groups = {}
    for prefix, own in grouped((prefix, router) for router in routers for prefix in router.networks).items():
        if len(own) > 1 and all(router.language == "FRR" for router in own):
            groups.setdefault(tuple(router.number for router in own), (own, []))[1].append(prefix)
    return [Origins(own, sorted(prefixes), number + at, at + 1) for at, (own, prefixes) in enumerate(groups.values())]
