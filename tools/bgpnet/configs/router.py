"""A router as its configuration says: its neighbors, networks, lists, route-maps and options."""
from collections import namedtuple

from bgpnet.configs import inside, order, route, steps
from bgpnet.configs.communities import community_text, large_text
from bgpnet.configs.routes import ORIGINS, Denial
from bgpnet.configs.speaker import Speaker

# A line that names something, or sets a value.
Line = namedtuple("Line", "name place")
# A network that a router originates, with the default of local preference that stood above its line.
Network = namedtuple("Network", "prefix map_name place preference")

SENT = {"both": ("standard", "extended"), "all": ("standard", "extended", "large")}


class Neighbor:
    """A neighbor, or a group of neighbors. What a member says itself stands above what its group says."""

    def __init__(self, key, address, place, is_active):
        self.key, self.address, self.place, self.is_active = key, address, place, is_active
        self.group, self.remote, self.policies, self.said = None, None, {}, {}

    def line(self, kind):
        """What the neighbor says of a kind, or else its group."""
        found = self.said.get(kind)
        return found if found is not None or self.group is None else self.group.said.get(kind)

    def value(self, kind, default=None):
        found = self.line(kind)
        return default if found is None else found.name

    @property
    def asn(self):
        """The AS number of the neighbor, `external`, or None, and the line that says it."""
        return self.group.remote if self.group and self.group.remote else self.remote

    def policy(self, kind, direction):
        found = self.policies.get((kind, direction))
        return found if found is not None or self.group is None else self.group.policies.get((kind, direction))

    def sends(self, kind):
        return self.value(("send", kind), True)

    @property
    def is_shut(self):
        return self.value("shutdown", False)


class Router(Speaker):
    """What a file in the language of FRR says. `loopbacks` are the addresses of `lo`; `suppresses` is what a line says
    of duplicates, and `keeps_routes` whether it keeps the routes of a peer that restarts."""

    language = "FRR"

    def __init__(self, name):
        super().__init__(name)
        self.version, self.profile = (8, 4, 0), "traditional"
        self.groups, self.blocks = {}, None
        self.lists = {"access-list": {}, "prefix-list": {}, "as-path": {}, "community": {}, "large-community": {}}
        self.maps, self.loopbacks = {}, set()
        self.default_preference, self.default_line, self.activates = 100, None, True
        self.options, self.suppresses, self.keeps_routes, self.cluster_line = {}, None, False, None

    def all_neighbors(self):
        """Its groups of neighbors, and its neighbors."""
        return [*self.groups.values(), *self.neighbors.values()]

    def all_entries(self):
        """The entries of all its route-maps."""
        return [entry for one in self.maps.values() for entry in one.ordered()]

    @property
    def cluster(self):
        """The cluster id: the router id, where no line says another (RFC 4456 section 7)."""
        return (self.cluster_line or self.router_id).name

    def option(self, name):
        line = self.options.get(name)
        return bool(line and line.name)

    # ---- what a set asks

    def own_route(self, network, notes=None):
        return route.own_route(self, network, notes)

    def told(self, neighbor, far, prefix, way):
        if far.router.is_origins:
            return Denial(far.router.place, "it announces, and hears nothing")
        if far.router.asn == self.asn:
            return inside.told(self, neighbor, prefix, way.route)
        told = route.told(self, neighbor, prefix, way.route, self.is_own(way))
        return told if isinstance(told, Denial) or self.reach is None else inside.leaving(self, neighbor, told)

    def is_own(self, way):
        """Whether the route of a way is the router's own."""
        return len(way.path) == 1 if self.reach is None else way.route.heard is None

    def heard(self, neighbor, far, prefix, told):
        if far.router.is_origins:
            return self.own_route(self.networks[prefix], told.notes)
        if far.router.asn == self.asn:
            return inside.heard(self, neighbor, far, prefix, told)
        found = route.heard(self, neighbor, prefix, told)
        return found if isinstance(found, Denial) or self.reach is None else inside.reached(self, neighbor, far, found)

    def announced(self, network):
        return network.map_name, network.preference

    def asked_of(self, prefix):
        if self.blocks is None:
            self.blocks = sorted({entry.value for kind in ("access-list", "prefix-list")
                                  for one in self.lists[kind].values() for entry in one.entries.values()})
        return tuple(route.block_fits(block, prefix) for block in self.blocks)

    def order(self, routers, prefix, ways):
        return (order.Order if self.reach is None else steps.Order)(routers, prefix, self.number, ways)

    def may_keep(self, routers, prefix, ways, kept):
        return (order if self.reach is None else steps).may_keep(routers, prefix, self.number, ways, kept)

    def prefers_own(self, own, back):
        return (back.weight, self.preference(back)[0], 0) <= (own.weight, self.preference(own)[0], 1)

    def against(self, own, back):
        return f" (weight {back.weight} against {own.weight})"

    def preference(self, held):
        return (held.preference, None) if held.has_preference else (self.default_preference, self.default_line)

    def shown(self, held):
        found = {"path": held.path, "origin": ORIGINS[held.origin], "med": held.med if held.has_med else None,
                 "local-pref": held.preference if held.has_preference else None, "weight": held.weight,
                 "communities": sorted(map(community_text, held.communities)),
                 "large": sorted(map(large_text, held.large))}
        return found if self.reach is None else {**found, **inside.shown(held)}

    def no_session(self, neighbor, far):
        if neighbor.is_shut:
            return neighbor.line("shutdown").place, f"neighbor {neighbor.key} is shut: there is no session"
        return None
