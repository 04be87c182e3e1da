"""The order of a router's ways where an AS has several routers: the decision process of FRR, step by step."""
from functools import partial
from itertools import permutations

from bgpnet.configs.inside import EXTERNAL
from bgpnet.configs.order import Tie, coarse_key, compares_all, compares_metric, metric
from bgpnet.configs.pairs import groups_of, in_order, refuse_circle, shortest_circle
from bgpnet.configs.routes import ORIGINS
from bgpnet.configs.sessions import dotted
from bgpnet.program import grouped

COMPARE_ID, DETERMINISTIC = "bgp bestpath compare-routerid", "bgp deterministic-med"
TYPE_LAST, BY_CLUSTERS = "bgp bestpath peer-type multipath-relax", "equal-cluster-length"
# The steps, as they are named; that of MED stands behind the first five.
OWN_ROUTE = "own route"
COARSE = ("weight", "local preference", OWN_ROUTE, "length of AS_PATH", "origin")
MED, TYPE, METRIC, CLUSTERS, AGE = "MED", "eBGP before iBGP", "IGP metric", "length of CLUSTER_LIST", "age"
ID, ADDRESS = "router id", "address of the neighbor"
OWN = -1


def kind_key(router, route):
    """What is compared behind MED and before the age, each with the name of its step, the least first."""
    heard = route.heard
    is_internal = heard is not None and heard.kind != EXTERNAL
    type_step, metric_step = (TYPE, int(is_internal)), (METRIC, OWN if heard is None else heard.metric)
    steps = [metric_step, type_step] if router.option(TYPE_LAST) else [type_step, metric_step]
    if router.option(BY_CLUSTERS):
        steps.insert(1 + steps.index(metric_step), (CLUSTERS, len(route.clusters) if is_internal else 0))
    return steps


def last_key(route):
    """What is compared behind the age."""
    heard = route.heard
    if heard is None:
        return [(ID, OWN), (CLUSTERS, 0), (ADDRESS, OWN)]
    return [(ID, heard.id if route.originator is None else route.originator), (CLUSTERS, len(route.clusters)),
            (ADDRESS, heard.address)]


def is_by_age(router, one, other):
    """Whether of two routes that are alike up to here the one stays that is selected: both came by eBGP."""
    return not router.option(COMPARE_ID) and all(route.heard is not None and route.heard.kind == EXTERNAL
                                                 for route in (one, other))


def steps_of(router, one, other):
    """The steps by which two ways are compared, each with both values; MED only where it is compared."""
    found = [(name, *values) for name, *values in zip(COARSE, coarse_key(router, one), coarse_key(router, other))]
    if compares_metric(router, one.route, other.route):
        found.append((MED, metric(router, one.route), metric(router, other.route)))
    keys = zip(kind_key(router, one.route), kind_key(router, other.route))
    found += [(name, value, against) for (name, value), (_, against) in keys]
    if is_by_age(router, one.route, other.route):
        found.append((AGE, 0, 0))
    keys = zip(last_key(one.route), last_key(other.route))
    return found + [(name, value, against) for (name, value), (_, against) in keys]


def deciding(router, one, other):
    """The step by which one way stands above another or below it, with both values; none where they are alike."""
    return next((step for step in steps_of(router, one, other) if step[1] != step[2]), None)


def is_above(router, one, other):
    """Whether a way stands above another."""
    step = deciding(router, one, other)
    return (step[1:] if step else (one.path, other.path)) < (step[:0:-1] if step else (other.path, one.path))


def value_text(name, value):
    """The value of a step, in words."""
    if name in ("weight", "local preference"):
        return str(-value)
    if name in (ID, ADDRESS):
        return dotted(value)
    return ORIGINS[value] if name == "origin" else str(value)


def are_together(one, other):
    """Whether two paths can stand in a table together: a router on both has one rest of a path."""
    behind = {router: one[at:] for at, router in enumerate(one[1:], 1)}
    return all(behind.get(router, other[at:]) == other[at:] for at, router in enumerate(other[1:], 1))


class Order:
    """The order of the ways of a router for a prefix, best first. `ties` are those that FRR tells apart by what it
    selected before; `circles` those of which MED leaves no order, each with ways that are better than the next, and the
    last than the first. Those of `left_out` can't last, and stand at the end."""

    def __init__(self, routers, prefix, number, ways):
        self.set, self.prefix, self.router, self.circles = routers, prefix, routers.routers[number], []
        self.left_out, self.ties = set(), []
        self.ways = [way for group in groups_of(ways, partial(coarse_key, self.router))
                     for way in self.sorted_group(group)]

    def key(self, way):
        """What is compared behind MED of all ways, with their own numbers at last."""
        return [value for _, value in kind_key(self.router, way.route) + last_key(way.route)], way.path

    def sorted_group(self, group):
        """Ways that are alike up to the origin."""
        group = sorted(group, key=self.key)
        is_compared = compares_all(self.router, group)
        if is_compared is None:
            return self.by_pairs(group)
        if is_compared:
            group = sorted(group, key=lambda way: metric(self.router, way.route))
        self.note_ties(group, is_compared)
        return group

    def note_ties(self, group, by_metric, above=None):
        """Keeps which ways of a group FRR tells apart by what it selected before: those that are alike up to the age.
        Where `by_metric` says so all MEDs are compared; else `above` has for each kind those that its MED sets above
        it."""
        alike = {}
        for way in group:
            if is_by_age(self.router, way.route, way.route):
                values = tuple(value for _, value in kind_key(self.router, way.route))
                alike.setdefault((values, by_metric and metric(self.router, way.route)), {}).setdefault(
                    self.kind(way), []).append(way)
        for kinds in alike.values():
            if len({kind[0] for kind in kinds}) > 1 and any(
                    self.can_meet(kinds[one], kinds[other]) for one, other in permutations(kinds, 2)):
                tie = Tie(kinds, {kind: (above or {}).get(kind, set()).intersection(kinds) for kind in kinds})
                if tie.tied():
                    self.ties.append(tie)

    def kind(self, way):
        """What tells ways apart to the decision process: of one neighbor, with one first AS and one MED."""
        return (way.path[1] if len(way.path) > 1 else 0, way.route.path[:1], metric(self.router, way.route),
                *self.key(way)[0])

    def by_pairs(self, group):
        """Ways of which only some are compared by their MED. Two of one neighbor never stand in a table together. Where
        no pairs go in a circle that can stand in a table together, that is an order."""
        kinds, by_metric = grouped((self.kind(way), way) for way in group), {}
        above = {kind: set() for kind in kinds}
        for one, other in permutations(kinds, 2):
            pair = kinds[one][0], kinds[other][0]
            if one[0] != other[0] and is_above(self.router, *reversed(pair)):
                above[one].add(other)
                if deciding(self.router, *pair)[0] == MED:
                    by_metric.setdefault(one, set()).add(other)
        found, left = in_order(kinds, above)
        if left:
            for one in left:
                above[one] = {other for other in above[one] if self.can_meet(kinds[one], kinds[other])}
            found, left = in_order(kinds, above)
        if left:
            self.circles.append(([way for kind in left for way in kinds[kind]],
                                 [kinds[kind][0] for kind in shortest_circle(left, above)]))
        self.note_ties(group, False, by_metric)
        return [way for kind in found + left for way in kinds[kind]]

    @staticmethod
    def can_meet(ways, others):
        return any(are_together(one.path, other.path) for one in ways for other in others)

    @property
    def undecided(self):
        """The paths, in groups, of which no order says which is better."""
        return [{way.path for way in ways} for ways, _ in self.circles] + [tie.tied() for tie in self.ties]

    def leave(self, paths):
        """Orders the ways of some paths anew, and puts the others behind them."""
        rest = Order(self.set, self.prefix, self.router.number, [way for way in self.ways if way.path in paths])
        self.left_out = {way.path for way in self.ways}.difference(paths)
        self.ways = rest.ways + [way for way in self.ways if way.path in self.left_out]
        self.ties, self.circles = rest.ties, rest.circles

    def refuse_circles(self):
        for _, ways in self.circles:
            self.refuse_circle(ways)

    def refuse_circle(self, ways):
        """Refuses ways that are each better than the next, and the last than the first, by which step each."""
        place = self.set.ends[self.router.number][ways[0].path[1]].neighbor.place
        by = ", ".join(f"{self.set.path_label(one.path)} over {self.set.path_label(other.path)} by "
                       f"{deciding(self.router, one, other)[0]}" for one, other in zip(ways, ways[1:] + ways[:1]))
        refuse_circle(place, f"{self.set.label(self.router.number)} {self.prefix}", [way.path for way in ways],
                      f"MED is compared only where the paths begin with the same AS ({by}): "
                      "'bgp always-compare-med' makes an order", self.set.path_label)


def may_keep(routers, prefix, number, ways, kept):
    """Whether a router may stay with a way of those in its table.

    FRR compares one route after the other. So a way may stay from which a chain leads to each other one, each better
    than the next, or kept for its age; with `bgp deterministic-med` first among those of one AS, then among the
    best of each."""
    router = routers.routers[number]

    def stays_above(one, other):
        step = deciding(router, one, other)
        steps = [name for name, *_ in steps_of(router, one, other)]
        if AGE in steps and (step is None or steps.index(step[0]) > steps.index(AGE)):
            return True
        return is_above(router, one, other)

    def lasting(among):
        found = []
        for way in among:
            reached, queue = {way.path}, [way]
            for one in queue:
                more = [other for other in among if other.path not in reached and stays_above(one, other)]
                reached.update(other.path for other in more)
                queue += more
            if len(reached) == len(among):
                found.append(way)
        return found

    if router.option(DETERMINISTIC):
        groups = grouped((way.route.path[:1] or way.path, way) for way in ways)
        ways = [way for group in groups.values() for way in lasting(group)]
    return any(way is kept for way in lasting(ways))
