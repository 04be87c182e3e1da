"""What the policy of a router of FRR makes of a route."""
from functools import lru_cache

from bgpnet.configs.communities import BLACKHOLE, KEPT_IN, NO_EXPORT, SHUTDOWN, sorted_set
from bgpnet.configs.lists import block_fits, path_fits
from bgpnet.configs.routes import MOST, ORIGINS, Denial, Route, denied_by

OWN_WEIGHT = 32768
POLICIES = ("distribute-list", "prefix-list", "filter-list", "route-map")


@lru_cache(maxsize=65536)
def path_as_text(path):
    return " ".join(map(str, path))


# ---- route-maps

class Entry:
    """An entry of a route-map. A second line of a kind takes the place of the first, and a `set` goes to the end."""

    def __init__(self, map_name, number, permits, place):
        self.map_name, self.number, self.permits, self.place = map_name, number, permits, place
        self.matches, self.sets, self.said, self.call, self.next = {}, {}, {}, None, None

    def set(self, kind, form, value, place):
        """Adds a `set` line, and says whether it acts. Lines of a kind have forms; where a form comes behind a greater
        one, FRR 8.4 drops both, and where a line says what the last one said, nothing changes."""
        former = self.said.get(kind)
        self.said[kind] = form, value
        if former == (form, value):
            return kind in self.sets
        self.sets.pop(kind, None)
        if former is not None and form < former[0]:
            return False
        self.sets[kind] = (value, place)
        return True

    def __str__(self):
        return f"route-map {self.map_name} {self.number}"


class RouteMap:
    """The entries of a route-map by number."""

    def __init__(self, name, place):
        self.name, self.place, self.entries, self.in_order = name, place, {}, None

    def entry(self, number, permits, place):
        entry = self.entries.setdefault(number, Entry(self.name, number, permits, place))
        entry.permits, entry.place, self.in_order = permits, place, None
        return entry

    def ordered(self):
        if self.in_order is None:
            self.in_order = [self.entries[number] for number in sorted(self.entries)]
        return self.in_order


def adjusted(value, sign, change):
    """A number that is set, or the former one changed within its bounds."""
    if sign == "+":
        return min(value + change, MOST)
    return max(value - change, 0) if sign == "-" else change


def prepended(path, value):
    """A path with numbers in front, or with so many times the one that stands in front."""
    return (value if isinstance(value, tuple) else path[:1] * value) + path


def joined(former, numbers, adds):
    """Communities that are set, or added to the former ones."""
    return sorted_set(former + numbers if adds else numbers)


def sifted(former, found):
    """Communities without those that a list permits, if there is such a list."""
    return tuple(one for one in former if not found.permits_one(one)) if found else former


# What a `set` line of each kind makes of a route: the fields that it changes.
SETS = {
    "local-preference": lambda router, route, value: {
        "preference": adjusted(route.preference, *value), "has_preference": True},
    "metric": lambda router, route, value: {
        "med": adjusted(route.med if route.has_med else 0, *value), "has_med": True},
    "weight": lambda router, route, value: {"weight": value},
    "prepend": lambda router, route, value: {"path": prepended(route.path, value)},
    "exclude": lambda router, route, value: {"path": tuple(one for one in route.path if one not in value)},
    "origin": lambda router, route, value: {"origin": value},
    "community": lambda router, route, value: {"communities": joined(route.communities, *value)},
    "large-community": lambda router, route, value: {"large": joined(route.large, *value)},
    "comm-list": lambda router, route, value: {
        "communities": sifted(route.communities, router.lists["community"].get(value))},
    "large-comm-list": lambda router, route, value: {
        "large": sifted(route.large, router.lists["large-community"].get(value))},
}
# Those that change what was there, and those that do so where they add.
CHANGING = ("prepend", "exclude", "comm-list", "large-comm-list")
ADDING = ("community", "large-community")
ATTRIBUTE_OF = {"local-preference": "local-pref", "metric": "med", "weight": "weight", "prepend": "path",
                "exclude": "path", "origin": "origin", "community": "communities", "comm-list": "communities",
                "large-community": "large", "large-comm-list": "large"}


def apply_sets(router, entry, route):
    """What the `set` lines of an entry make of a route."""
    for kind, (value, place) in entry.sets.items():
        if kind == "exclude":
            for number in {*value}.intersection(route.path):
                route.note(("excluded", number), place, True)
        vars(route).update(SETS[kind](router, route, value))
        route.note(ATTRIBUTE_OF[kind], f"{place} {entry}", kind in CHANGING or kind in ADDING and value[1])


def fits(router, kind, value, place, prefix, route):
    """Whether a `match` line fits. A list that is nowhere fits nothing; a prefix-list without entries fits everything
    where it stands below the line."""
    if kind in ("access-list", "prefix-list"):
        found = router.lists[kind].get(value)
        if found is not None and kind == "prefix-list" and not found.entries:
            return found.place.line > place.line
        return found is not None and found.permits(prefix, block_fits)
    if kind == "as-path":
        found = router.lists[kind].get(value)
        return found is not None and found.permits(path_as_text(route.path), path_fits)
    if kind in ("community", "large-community"):
        name, is_exact = value
        found = router.lists[kind].get(name)
        communities = route.communities if kind == "community" else route.large
        return found is not None and found.permits_set(communities, is_exact)
    return value == {"metric": route.med, "local-preference": route.preference, "origin": route.origin}[kind]


def match_text(entry):
    """What an entry looks for, in words."""
    names = {"access-list": "access-list", "prefix-list": "prefix-list", "as-path": "as-path list",
             "community": "community list", "large-community": "large-community list"}
    found = []
    for kind, (value, _) in entry.matches.items():
        value = value[0] if isinstance(value, tuple) else ORIGINS[value] if kind == "origin" else value
        found.append(f"{names.get(kind, kind)} {value}")
    return f" ({', '.join(found)})" if found else ""


def apply_map(router, name, prefix, route):
    """Changes a route by a route-map; the denial, where it ends in one.

    What fits in a `permit` entry acts at once. Behind `on-match` the map goes on, and an entry that then does not fit
    is a denial again, if none behind it fits."""
    entries = router.maps[name].ordered()
    denial, at = Denial(router.maps[name].place, f"route-map {name} (no entry fits)"), 0
    nothing = denial
    while at < len(entries):
        entry = entries[at]
        at += 1
        if not all(fits(router, kind, value, place, prefix, route) for kind, (value, place) in entry.matches.items()):
            denial = nothing
            continue
        if not entry.permits:
            return Denial(entry.place, f"{entry}{match_text(entry)}")
        denial = None
        apply_sets(router, entry, route)
        if entry.call and entry.call[0] in router.maps:
            if denial := apply_map(router, entry.call[0], prefix, route):
                return denial
        if entry.next is None:
            return None
        if entry.next:
            while at < len(entries) and entries[at].number < entry.next:
                at += 1
    return denial


# ---- from one table to the next

def filtered(router, neighbor, direction, prefix, path):
    """The denial of a neighbor's lists for prefixes and paths, or None. A list that is nowhere denies; a prefix-list
    without entries denies where it stands below the neighbor's line, and else permits everything."""
    for kind, of, value, judge in (("distribute-list", "access-list", prefix, block_fits),
                                   ("prefix-list", "prefix-list", prefix, block_fits),
                                   ("filter-list", "as-path", path_as_text(path), path_fits)):
        if line := neighbor.policy(kind, direction):
            found = router.lists[of].get(line.name)
            if found is None:
                return Denial(line.place, f"{kind} {line.name} {direction} (there is no such list)")
            if kind == "prefix-list" and not found.entries and found.place.line < line.place.line:
                continue
            if not found.permits(value, judge):
                entry = found.deciding(value, judge)
                return Denial(entry.place if entry else line.place, f"{kind} {line.name} {direction}")
    return None


def mapped(router, neighbor, direction, prefix, route):
    """Changes a route by the route-map of a neighbor; the denial, where it is denied."""
    if line := neighbor.policy("route-map", direction):
        if line.name not in router.maps:
            return Denial(line.place, f"route-map {line.name} {direction} (there is no such map)")
        return apply_map(router, line.name, prefix, route)
    return None


def without_policy(router, neighbor, direction):
    """The denial of a session without a policy, where one is required, or None."""
    if router.option("bgp ebgp-requires-policy") and not any(neighbor.policy(kind, direction) for kind in POLICIES):
        return Denial(neighbor.place, f"no policy {direction} (bgp ebgp-requires-policy)")
    return None


def own_route(router, network, notes=None):
    """The route of a router's own network, or its denial. Without a map it is made where its line stands, with one
    again when all lines are read."""
    preference = router.default_preference if network.map_name else network.preference
    route = Route(med=0, has_med=True, preference=preference, weight=OWN_WEIGHT, notes=notes)
    if network.map_name:
        if network.map_name not in router.maps:
            return Denial(network.place, f"route-map {network.map_name} (there is no such map)")
        if denial := apply_map(router, network.map_name, network.prefix, route):
            return denial
    return route


def told(router, neighbor, prefix, route, is_own):
    """The route that a router tells a neighbor of one in its table, or why it tells none."""
    if kept := KEPT_IN.intersection(route.communities):
        return denied_by(min(kept), route, neighbor.place)
    if denial := filtered(router, neighbor, "out", prefix, route.path):
        return denial
    route = route.copy()
    if not is_own:
        route.has_med = False
        route.note("med")
    if denial := mapped(router, neighbor, "out", prefix, route) or without_policy(router, neighbor, "out"):
        return denial
    route.path = (router.asn,) + route.path
    route.has_preference, route.preference = False, 0
    route.note("local-pref")
    return sent(neighbor, route)


def sent(neighbor, route):
    """A route without what no UPDATE to a neighbor has."""
    route.weight = 0
    route.note("weight")
    if not route.has_med:
        route.med = 0
    if not neighbor.sends("standard"):
        route.communities = ()
    if not neighbor.sends("large"):
        route.large = ()
    return route


def looped(router, neighbor, route):
    """The denial of a route whose path has the router's AS, or None."""
    return Denial(neighbor.place, f"AS {router.asn} stands in the path") if router.asn in route.path else None


def weigh(neighbor, route):
    """Gives a route the weight that a line of its neighbor says."""
    weight = neighbor.line("weight")
    if weight and weight.name:
        route.weight = weight.name
        route.note("weight", f"{weight.place} neighbor weight")


def heard(router, neighbor, prefix, route):
    """The route that comes into a router's table of one that a neighbor tells, which it changes; or why none comes."""
    route.preference, route.has_preference = 0, False
    denial = looped(router, neighbor, route) or filtered(router, neighbor, "in", prefix, route.path) or \
        without_policy(router, neighbor, "in")
    if denial:
        return denial
    weigh(neighbor, route)
    if denial := mapped(router, neighbor, "in", prefix, route):
        return denial
    if BLACKHOLE in route.communities and NO_EXPORT not in route.communities:
        route.communities = sorted_set(route.communities + (NO_EXPORT,))
    if SHUTDOWN in route.communities:
        route.preference, route.has_preference = 0, True
        route.note("local-pref", f"{neighbor.place} community graceful-shutdown")
    return route
