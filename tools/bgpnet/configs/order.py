"""The order of a router's ways: the decision process of FRR."""
from functools import partial
from itertools import permutations

from bgpnet.configs.pairs import all_in_order, groups_of
from bgpnet.configs.routes import MOST
from bgpnet.network import MOST_PATHS
from bgpnet.program import grouped


def coarse_key(router, way):
    """What is compared before MULTI_EXIT_DISC, the least first."""
    route = way.route
    preference = route.preference if route.has_preference else router.default_preference
    length = 0 if router.option("bgp bestpath as-path ignore") else len(route.path)
    return -route.weight, -preference, not router.is_own(way), length, route.origin


def metric(router, route):
    if route.has_med:
        return route.med
    return MOST if router.option("bgp bestpath med missing-as-worst") else 0


def compares_metric(router, one, other):
    """Whether the metrics of two routes are compared: of those whose paths begin with the same AS, or of all."""
    return router.option("bgp always-compare-med") or one.path[:1] == other.path[:1]


def compares_all(router, group):
    """Whether the metrics of all ways of a group are compared; None where some are, and False where none has to be,
    since those that begin with the same AS have one."""
    firsts = {way.route.path[:1] for way in group}
    if len(firsts) == 1 or router.option("bgp always-compare-med"):
        return True
    return False if len({(way.route.path[:1], metric(router, way.route)) for way in group}) == len(firsts) else None


class Tie:
    """Ways of two peers or more that are alike up to the router id, or of which only some are compared by their metric.

    Those of a kind are of one peer and alike to all others; `kinds` has the paths of each in their order, and `above`
    for each kind those of other peers that its metric sets above it. `blocks` are what is put in orders: the paths, or
    where these are many the kinds."""

    def __init__(self, kinds, above):
        self.kinds = {kind: tuple(way.path for way in ways) for kind, ways in kinds.items()}
        self.above, self.kind = above, {path: kind for kind, paths in self.kinds.items() for path in paths}
        self.blocks = list(self.kinds.values()) if len(self.kind) > MOST_PATHS else [(path,) for path in self.kind]

    @property
    def paths(self):
        return tuple(self.kind)

    def is_above(self, one, other):
        """Whether a metric sets a block above another."""
        return self.kind[one[0]] in self.above.get(self.kind[other[0]], ())

    def are_rivals(self, one, other):
        """Whether no metric says which of two blocks of different peers is better."""
        return one[0][1] != other[0][1] and not self.is_above(one, other) and not self.is_above(other, one)

    def tied(self):
        """The paths that have rivals."""
        kinds = list(self.kinds.values())
        return {path for one in kinds if any(self.are_rivals(one, other) for other in kinds) for path in one}

    def orders(self, found=()):
        """The orders of the blocks that metrics allow. Two of one peer never stand in a table together: where nothing
        comes between them they keep their places."""
        left = [block for block in self.blocks if block not in found]
        last = self.blocks.index(found[-1]) if found else 0
        if not left:
            yield found
        for block in left:
            is_turned = found and block[0][1] == found[-1][0][1] and self.blocks.index(block) < last
            if not is_turned and not any(self.is_above(other, block) for other in left):
                yield from self.orders(found + (block,))

    def nearest(self, wanted):
        """The order that metrics allow in which the blocks stand as wanted, each behind those that belong above it."""
        found = {}
        for block in wanted:
            waiting = [block]
            while waiting:
                missing = next((other for other in wanted if self.is_above(other, waiting[-1])
                                and other not in found), None)
                if missing:
                    waiting.append(missing)
                else:
                    found.setdefault(waiting.pop())
        return tuple(found)

    def allows(self, order):
        """Whether metrics allow an order."""
        return not any(self.is_above(other, block) for at, block in enumerate(order) for other in order[at + 1:])

    def first(self, block):
        """The blocks with one of them in front."""
        return (block, *(other for other in self.blocks if other != block))

    def outlasting(self):
        """Orders with a block in front that a metric sets below another. FRR compares one route after the other: where
        a third one is taken before the better one, and the path is selected now, it stays."""
        return [self.first(block) for block in self.blocks if any(self.is_above(other, block) for other in self.blocks)
                and any(self.are_rivals(block, other) for other in self.blocks)]


class Order:
    """The order of the ways of a router for a prefix, best first. `ties` are those that FRR tells apart by what it
    selected before."""

    def __init__(self, routers, prefix, asn, ways):
        self.set, self.prefix, self.router = routers, prefix, routers.routers[asn]
        self.ties = []
        self.ways = [way for group in groups_of(ways, partial(coarse_key, self.router))
                     for way in self.sorted_group(group)]

    def last_key(self, way):
        """The router id and the address of the peer that tells a way, then its own numbers."""
        peer = way.path[1] if len(way.path) > 1 else None
        if peer is None:
            return 0, 0, way.path
        ends = self.set.ends
        return ends[peer][self.router.number].id, ends[self.router.number][peer].neighbor.address, way.path

    def beats(self, one, other):
        """Whether one way of a group stands above another by its metric: 1, -1, or 0 where that says nothing."""
        if not compares_metric(self.router, one.route, other.route):
            return 0
        metrics = metric(self.router, one.route), metric(self.router, other.route)
        return (metrics[0] < metrics[1]) - (metrics[0] > metrics[1])

    def sorted_group(self, group):
        is_compared = compares_all(self.router, group)
        if is_compared:
            alike = groups_of(group, lambda way: metric(self.router, way.route))
            return [way for own in alike for way in self.by_id(own)]
        return self.by_pairs(group) if is_compared is None else self.by_id(group)

    def by_id(self, group):
        """Ways that are alike up to the router id."""
        group = sorted(group, key=self.last_key)
        peers = grouped((way.path[1:2], way) for way in group)
        if len(peers) > 1:
            self.note_tie(Tie(peers, {}))
        return group

    def note_tie(self, tie):
        if not self.router.option("bgp bestpath compare-routerid"):
            self.ties.append(tie)

    def by_pairs(self, group):
        """Ways of which only some are compared by their metric. Two of one peer never stand in a table together: where
        no metric says which is better, nothing does."""
        kinds = grouped(((way.path[1], way.route.path[:1], metric(self.router, way.route)), way)
                        for way in sorted(group, key=self.last_key))
        above, by_metric = {kind: set() for kind in kinds}, {kind: set() for kind in kinds}
        for one, other in permutations(kinds, 2):
            judged, is_other = self.beats(kinds[one][0], kinds[other][0]), one[0] != other[0]
            if judged < 0 and is_other:
                by_metric[one].add(other)
            if judged < 0 or not judged and is_other and \
                    self.last_key(kinds[other][0]) < self.last_key(kinds[one][0]):
                above[one].add(other)
        why = "MED is compared only where the paths begin with the same AS"
        found = {kind: kinds[kind] for kind in all_in_order(self, kinds, above, why)}
        tie = Tie(found, by_metric)
        if tie.tied():
            self.note_tie(tie)
        return [way for ways in found.values() for way in ways]


def may_keep(routers, prefix, asn, ways, kept):
    """Whether a router may stay with a way: none of its ways is better, the router id left aside.

    A better metric may be passed over: FRR compares one route after the other, so that one whose metric is not
    compared may come between."""
    router = routers.routers[asn]
    if router.option("bgp bestpath compare-routerid"):
        return Order(routers, prefix, asn, ways).ways[0] is kept
    key, order = coarse_key(router, kept), Order(routers, prefix, asn, [])
    if any(coarse_key(router, way) < key for way in ways):
        return False
    ways = [way for way in ways if coarse_key(router, way) == key]
    above = [way for way in ways if order.beats(way, kept) > 0]
    if not above:
        return True
    first = min(above, key=lambda way: (metric(router, way.route), order.last_key(way)))
    return not router.option("bgp deterministic-med") and any(
        order.last_key(way) < order.last_key(first) and not compares_metric(router, way.route, first.route)
        for way in ways)
