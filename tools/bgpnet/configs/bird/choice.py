"""The order of a router's ways: how BIRD chooses.

Two routes are compared by what both protocols say, so that the order is one of pairs: where these go in a circle, which
is best depends on the order in which they came."""
from itertools import combinations

from bgpnet.configs.bird.evaluate import UNREACHABLE
from bgpnet.configs.communities import STALE
from bgpnet.configs.lists import mask_of
from bgpnet.configs.pairs import all_in_order, groups_of
from bgpnet.program import grouped

MISSING_ORIGIN = 2
# The distance to a next hop that an own route covers, which says none; to one that is not reached it is 0.
UNKNOWN = 1 << 31
WHY = "lengths and MEDs are compared only where the protocols or the first AS numbers say so"


def covers(prefix, address):
    return address & mask_of(prefix.length) == prefix.address


class Order:
    """The order of the ways of a router for a prefix, best first. No two are tied."""

    def __init__(self, routers, prefix, router, ways):
        self.set, self.prefix, self.router, self.ties = routers, prefix, router, []
        self.ways = [way for group in groups_of(ways, self.front_key) for way in self.sorted_group(group)]

    def front_key(self, way):
        """What is compared first: preference, whether the next hop is reached, whether the route outlived its
        session, local preference."""
        route = way.route
        if route.near is None:
            return -route.standing, 0, 0, 0
        return (-route.standing, not self.is_reached(route), STALE in route.communities,
                -self.router.preference(route)[0])

    def is_reached(self, route):
        """Whether the next hop of a route is in the router's own table, or a filter says so."""
        if "dest" in route.more:
            return route.more["dest"].number != UNREACHABLE
        return route.near.is_direct or self.is_covered(route.near)

    def is_covered(self, near):
        """Whether an own route covers the address of a neighbor."""
        return any(covers(prefix, near.address) for prefix in self.router.networks)

    def id_of(self, way):
        return self.set.ends[way.path[1]][self.router.number].id, way.route.near.address

    @staticmethod
    def metric(route):
        return route.med if route.has_med else route.near.option("default bgp_med", 0)

    def distance(self, route):
        if not route.near.option("igp metric", True):
            return 0
        if route.near.is_direct:
            return route.near.of_channel("cost", 0)
        return UNKNOWN if self.is_covered(route.near) else 0

    def first(self, route):
        return route.path[0] if route.path else self.router.asn

    def is_better(self, one, other):
        """Whether a way stands above another of the same front key, of another peer."""
        a, b = one.route, other.route
        pairs = []
        if a.near.option("path metric", True) or b.near.option("path metric", True):
            pairs.append((len(a.path), len(b.path)))
        pairs.append(tuple(MISSING_ORIGIN if route.origin is None else route.origin for route in (a, b)))
        if self.first(a) == self.first(b) or a.near.option("med metric") or b.near.option("med metric"):
            pairs.append((self.metric(a), self.metric(b)))
        pairs += [(self.distance(a), self.distance(b)), (self.id_of(one), self.id_of(other))]
        return next((left < right for left, right in pairs if left != right), False)

    def is_plain(self, group):
        """Whether all of a group is compared by the same things."""
        protocols = {way.route.near for way in group}
        firsts = {self.first(way.route) for way in group}
        return len({near.option("path metric", True) for near in protocols}) == 1 and (
            len(firsts) == 1 or all(near.option("med metric") for near in protocols)
            or len({(self.first(way.route), self.metric(way.route)) for way in group}) == len(firsts)
            and not any(near.option("med metric") for near in protocols))

    def plain_key(self, group):
        has_lengths = group[0].route.near.option("path metric", True)
        counts_all = len({self.first(way.route) for way in group}) == 1 or group[0].route.near.option("med metric")

        def key(way):
            route = way.route
            return (len(route.path) * bool(has_lengths), MISSING_ORIGIN if route.origin is None else route.origin,
                    self.metric(route) * bool(counts_all), self.distance(route), self.id_of(way), way.path)
        return key

    def sorted_group(self, group):
        if len(group) == 1:
            return group
        if self.is_plain(group):
            return sorted(group, key=self.plain_key(group))
        return self.by_pairs(group)

    def by_pairs(self, group):
        """Ways of which pairs are compared by other things. Two of one peer never stand in a table together."""
        kinds = grouped(((way.path[1], len(way.route.path), way.route.origin, self.first(way.route),
                          self.metric(way.route)), way)
                        for way in sorted(group, key=lambda way: (self.id_of(way), way.path)))
        above = {kind: set() for kind in kinds}
        for one, other in combinations(kinds, 2):
            if one[0] != other[0]:
                better = self.is_better(kinds[one][0], kinds[other][0])
                above[other if better else one].add(one if better else other)
        return [way for kind in all_in_order(self, kinds, above, WHY) for way in kinds[kind]]
