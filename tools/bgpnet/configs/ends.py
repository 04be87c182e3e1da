"""Judges where a network ended: whether each router has the best of what its peers offer, by the configurations."""
from bgpnet.configs.routes import Denial
from bgpnet.configs.ways import Way, crossed


class Judge:
    """Judges the paths of a prefix."""

    def __init__(self, routers, prefix, origin, network):
        self.set, self.prefix, self.origin = routers, prefix, origin.number
        self.known = {(origin.number,): origin.own_route(network)}

    def told(self, path):
        """The route of a router by a path that its peer has, or the denial; None where the way can't be."""
        teller, listener = path[1], path[0]
        before = self.route(path[1:])
        if before is None or isinstance(before, Denial) or listener not in self.set.up[teller]:
            return None
        return crossed(self.set, self.prefix, Way(path[1:], before), listener)

    def route(self, path):
        """The route at the first router of a path that comes over the others; or why there is none."""
        if path not in self.known:
            self.known[path] = self.told(path) if len(path) > 1 else None
        return self.known[path]

    def offers(self, asn, chosen):
        """What stands in a router's table where its peers have chosen paths: a way for each peer that offers one."""
        found = []
        if asn == self.origin and not isinstance(self.route((asn,)), Denial):
            found.append(Way((asn,), self.route((asn,))))
        for peer in self.set.up[asn]:
            if path := chosen.get(peer):
                route = self.route((asn,) + path)
                if route is not None and not isinstance(route, Denial):
                    found.append(Way((asn,) + path, route))
        return found

    def best(self, asn, chosen):
        """The best of what a router's peers offer, or none."""
        ways = self.set.routers[asn].order(self.set, self.prefix, self.offers(asn, chosen)).ways
        return ways[0].path if ways else ()

    def may_keep(self, asn, path, chosen):
        """Whether a router may stay with a path: none that its peers offer has to take its place."""
        ways = self.offers(asn, chosen)
        kept = next((way for way in ways if way.path == path), None)
        if kept is None:
            return not path and not ways
        return self.set.routers[asn].may_keep(self.set, self.prefix, ways, kept)
