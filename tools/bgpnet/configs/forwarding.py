"""Where packets go in an AS of several routers: each router sends them towards the next hop of its own route, so they
may leave the AS elsewhere than the route says, or go round (Griffin and Wilfong, On the Correctness of IBGP
Configuration, 2002: deflections)."""
from bgpnet.configs.ribs import shortest_ways


class Forwarding:
    """The ways of packets of a prefix by the routers' paths; `judge` has the route of each."""

    def __init__(self, routers, judge, paths):
        self.set, self.judge, self.paths = routers, judge, paths

    def exit_of(self, path):
        """The router at which a path leaves the AS of its first router, or its last."""
        asn = self.set.routers[path[0]].asn
        return next((router for router, after in zip(path, path[1:]) if self.set.routers[after].asn != asn), path[-1])

    def target(self, number):
        """The router of the AS to which a router sends what its route takes, itself where it leaves the AS there."""
        path = self.paths[number]
        if self.exit_of(path) == number:
            return number
        owner = self.set.owners.get(self.judge.route(path).next_hop, (None,))[0]
        is_inside = owner is not None and owner.asn == self.set.routers[number].asn
        return owner.number if is_inside else self.exit_of(path)

    def first_hop(self, number, target):
        """The neighbor in the IGP over which a router reaches another, None where that is not known."""
        edges = self.set.igp.inside.get(self.set.routers[number].asn, {})
        return shortest_ways(number, edges).get(target, (None, None))[1]

    def way(self, number):
        """The routers of the AS that packets pass, up to the one at which they leave it, and whether they go round; or
        None where that is not known."""
        way = [number]
        while self.paths.get(way[-1]):
            target = self.target(way[-1])
            if target == way[-1]:
                return way, False
            hop = self.first_hop(way[-1], target)
            if hop is None:
                return None
            if hop in way:
                return way + [hop], True
            way.append(hop)
        return None

    def said(self, number):
        """What is said of a router whose packets do not leave the AS where its route does, or nothing."""
        found = self.way(number) if self.paths.get(number) else None
        if found is None:
            return ""
        way, goes_round = found
        if goes_round:
            return f"  packets go round: {self.set.path_label(way)}"
        if way[-1] != self.exit_of(self.paths[number]):
            return f"  packets leave at {self.set.label(way[-1])}: {self.set.path_label(way)}"
        return ""
