"""Compares what the tools say of a set of configurations with the tables of real routers that became quiet."""
from bgpnet.configs.ends import Judge
from bgpnet.configs.routes import Denial
from bgpnet.configs.telling import play
from bgpnet.live import GaveUp
from bgpnet.network import path_text
from bgpnet.stable import stable_assignments
from bgpnet.wheels import Spokes


def names_of(routers):
    """The software of the routers of a set, in words."""
    return " and ".join(sorted({router.language for router in routers.routers.values()}))


class Ways:
    """The way of each router's best route, from peer to peer, in the tables of a quiet lab."""

    def __init__(self, routers, tables):
        self.set, self.tables, self.wrong = routers, tables, []
        self.chosen = {prefix: self.follow(prefix) for prefix in self.set.origins()}

    def peer_of(self, asn, address):
        return next(peer for peer, end in self.set.ends[asn].items() if end.neighbor.key == address)

    def behind(self, number, prefix):
        """What stands behind a router with an own route: nothing, or what stands behind several that announce it."""
        return [peer for peer in self.set.ends[number] if self.set.routers[peer].is_origins
                and prefix in self.set.routers[peer].networks]

    def follow(self, prefix):
        chosen = {}
        for asn, router in self.set.routers.items():
            path, at = [asn], asn
            if router.is_origins:
                chosen[asn] = (asn,) if prefix in router.networks else ()
                continue
            while path:
                table = self.tables[at, prefix]
                if not table.has_best:
                    path = []
                elif table.best is None:
                    path += self.behind(at, prefix)
                    break
                else:
                    at = self.peer_of(at, table.best)
                    if at in path:
                        self.wrong.append(f"{asn} {prefix}: {names_of(self.set)}'s best routes go in a circle")
                        path = []
                        break
                    path.append(at)
            chosen[asn] = tuple(path)
        return chosen


class Comparison(Ways):
    """The tables of a quiet lab, beside what the configurations say."""

    def __init__(self, ranks, tables):
        super().__init__(ranks.set, tables)
        self.ranks, self.routes = ranks, 0
        for prefix, (router, network) in self.set.origins().items():
            judge = Judge(self.set, prefix, router, network)
            for asn, own in self.set.routers.items():
                if not own.is_origins:
                    self.compare(judge, prefix, asn)

    def compare(self, judge, prefix, asn):
        """One router's routes for a prefix."""
        chosen, table, router = self.chosen[prefix], self.tables[asn, prefix], self.set.routers[asn]
        name = router.language
        offers = judge.offers(asn, chosen)
        # Whether a route goes straight back to its origin depends on which neighbors FRR tells alike.
        straight = [self.set.ends[asn][way.path[1]].neighbor.key for way in offers
                    if len(way.path) == 3 and way.path[2] == asn]
        wanted = {None if len(way.path) == 1 else self.set.ends[asn][way.path[1]].neighbor.key: router.shown(way.route)
                  for way in offers}
        self.routes += len(table.routes)
        for key in sorted({*wanted, *table.routes}, key=str):
            of = f"{asn} {prefix} from {key or 'itself'}"
            if key in straight and key not in table.routes:
                continue
            if key not in table.routes:
                self.wrong.append(f"{of}: {name} has none, here it is {wanted[key]}")
            elif key not in wanted:
                self.wrong.append(f"{of}: {name} has {table.routes[key]}, here it is none: "
                                  f"{self.denial(judge, asn, key, chosen)}")
            else:
                for attribute, value in wanted[key].items():
                    said = table.routes[key][attribute]
                    # FRR tells no route anew that has no MED where the last one had 0.
                    is_same_med = attribute == "med" and router.reach is not None and not said and not value
                    if said != value and not is_same_med:
                        self.wrong.append(f"{of}: {attribute}: {name} has {said}, here it is {value}")
        if not judge.may_keep(asn, chosen[asn], chosen):
            best = path_text(judge.best(asn, chosen))
            self.wrong.append(f"{asn} {prefix}: {name} keeps {path_text(chosen[asn])}, here {best} is better")
        if asn != judge.origin and prefix in self.ranks.orders:
            permitted = self.ranks.paths(prefix)[asn]
            for way in offers:
                if way.path not in permitted:
                    self.wrong.append(f"{asn} {prefix}: {path_text(way.path)} is offered and not permitted")

    def denial(self, judge, asn, key, chosen):
        if key is None:
            return "an own route"
        route = judge.route((asn,) + chosen[self.peer_of(asn, key)])
        return f"{route.place}: {route.why}" if isinstance(route, Denial) else str(route)


def stable_ends(program, paths, origin):
    """The stable assignments of these paths, a hundred and one more at most, and whether these are all."""
    try:
        return stable_assignments(program, paths, origin, 100)
    except GaveUp:
        return [], False


class Ends:
    """What the program plays of a set, and what its stable ends are."""

    def __init__(self, program, ranks):
        self.ranks = ranks
        self.is_settled, routes = play(program, ranks)
        self.played = {prefix: {asn: routes[asn, prefix] for asn in ranks.set.routers} for prefix in ranks.origins}
        self.stable, self.wheel = {}, {}
        for prefix, origin in ranks.origins.items():
            paths = ranks.paths(prefix)
            paths[origin] = [(origin,)]
            self.stable[prefix] = stable_ends(program, paths, origin)
            self.wheel[prefix] = bool(Spokes(paths).wheel())

    def judge(self, prefix, chosen):
        """How the routers' end stands to the program's: same, another stable one, a tie, or wrong."""
        if self.is_settled and self.played[prefix] == chosen:
            return "same"
        found, are_all = self.stable[prefix]
        if chosen in found:
            return "another" if self.is_settled else "unsettled"
        if any(self.ranks.orders[prefix][asn].ties for asn in chosen):
            return "tie"
        return "wrong" if are_all else "unknown"

    def may_change(self):
        """Whether a set that does not become quiet is what may be: no end, or a wheel."""
        return any(self.wheel.values()) or self.must_change()

    def must_change(self):
        return any(not found and are_all for found, are_all in self.stable.values())
