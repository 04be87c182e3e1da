"""Reads the configuration of a router line by line, as FRR obeys it."""
from itertools import count

from bgpnet.configs.bgp_lines import BgpLines
from bgpnet.configs.igp_lines import IgpLines
from bgpnet.configs.places import Place, refusal
from bgpnet.configs.policy_lines import PolicyLines
from bgpnet.configs.router import Line
from bgpnet.network import distances

MOST_CALLS = 10


class Reader(BgpLines, PolicyLines, IgpLines):
    """Obeys all lines of one file."""


def wrong_calls(router):
    """Why route-maps are refused whose calls go in a circle, or too deep."""
    calls = {name: {entry.call.name for entry in one.ordered() if entry.call}.intersection(router.maps)
             for name, one in router.maps.items()}
    endless, deep = set(calls), set()
    for depth in count(1):  # `longer` are the maps at which a chain of so many calls begins
        longer = {name for name in endless if calls[name] & endless}
        if depth == MOST_CALLS + 1:
            deep = longer
        if len(longer) == len(endless):
            break
        endless = longer
    for name in endless:
        if any(name in calls[other] for other in distances(calls, name)):
            yield refusal(router.maps[name].place, f"route-map {name} is called by a map that it calls")
    for name in deep - endless:
        yield refusal(router.maps[name].place, f"route-map {name}: more than {MOST_CALLS} calls in one another")


def check_detection(router, neighbor):
    """Refuses the detection of loops by the sender where a map excludes AS numbers: else the peer finds the same."""
    line = neighbor.said.get("sender-as-path-loop-detection")
    if line and any("exclude" in entry.sets for entry in router.all_entries()):
        raise refusal(line.place, "sender-as-path-loop-detection beside 'set as-path exclude': what is told depends on "
                                  "which neighbors FRR tells alike")


# The lists that a neighbor's lines name, by the word of the line.
LISTS = {"distribute-list": "access-list", "prefix-list": "prefix-list", "filter-list": "as-path"}


def used_names(router):
    """The lists and maps that lines name: of each its kind, its name, the line, what it is called there; what comes of
    it where it is nowhere; and of one without entries where it stands below the line, and where it stands above."""
    for neighbor in router.all_neighbors():
        for (kind, direction), line in neighbor.policies.items():
            every = f"everything {direction}"
            yield (LISTS.get(kind, kind), line.name, line.place, LISTS.get(kind, kind), f"it denies {every}",
                   (f"denies {every}", f"permits {every}"))
    for network in router.networks.values():
        if network.map_name:
            yield "route-map", network.map_name, network.place, "route-map", "the network is not announced", ()
    for entry in router.all_entries():
        for kind, (value, place) in entry.matches.items():
            if kind in router.lists:
                yield (kind, value[0] if isinstance(value, tuple) else value, place, f"{kind} list", "it fits nothing",
                       ("fits everything", "fits nothing"))
        for kind, of in (("comm-list", "community"), ("large-comm-list", "large-community")):
            if kind in entry.sets:
                yield of, *entry.sets[kind], f"{of} list", "nothing is deleted", ()
        if entry.call:
            yield "route-map", *entry.call, "route-map", "the call does nothing", ()


def check_names(router):
    """A warning for each name that is nowhere, then for each prefix-list of a description alone: what it is to FRR."""
    empty = []
    for kind, name, place, what, effect, effects in used_names(router):
        found = router.lists.get(kind, router.maps).get(name)
        if found is None:
            router.warn(place, f"there is no {what} {name}: {effect}")
        elif kind == "prefix-list" and not found.entries:
            empty.append((place, f"prefix-list {name} has no entries: it {effects[found.place.line < place.line]}"))
    for place, said in empty:
        router.warn(place, said)


def waiting(router):
    """A warning for each neighbor at which UPDATEs wait, and what that may come to where duplicates are suppressed."""
    suppresses = router.suppresses is None or router.suppresses.name
    for neighbor in router.all_neighbors():
        line = neighbor.said.get("interval")
        if line and line.name:
            said = "which changes no end, and may change which of several ends comes"
            if suppresses:
                said = ("and FRR may leave the neighbor without a route that it has: one that comes again while its "
                        "withdrawal waits is suppressed as a duplicate, and the withdrawal goes out all the same; not "
                        "so with 'no bgp suppress-duplicates'")
            router.warn(line.place, f"neighbor {neighbor.key} advertisement-interval: UPDATEs wait up to {line.name} "
                                    f"seconds, {said}")


def choose_id(router):
    """Takes the router id that the interfaces give: the greatest address of `lo`, else of the others."""
    own = [address for address in router.loopbacks or router.addresses if address >> 24 != 127]
    if not own:
        raise refusal(router.place, "no line 'bgp router-id', and no interface's address to take for it")
    router.router_id = Line(max(own), router.addresses[max(own)])
    router.warn(router.place, f"no line 'bgp router-id': it is taken to be the address at {router.router_id.place}")


def obey(text, name):
    """The router that a file is the configuration of, as far as its lines are taken, and the reasons why others are
    refused."""
    reader = Reader(text, name)
    router, reasons = reader.router, reader.reasons
    if reasons:
        router.is_whole = False
    elif router.asn is None:
        reasons.add(refusal(Place(name, 1), "no configuration of a router: there is no line 'router bgp'"))
        return router, reasons
    elif router.router_id is None:
        reasons.attempt(choose_id, router)
    for network in router.networks.values():
        if router.option("bgp network import-check"):
            router.warn(network.place, "network: taken as announced; with import-check FRR announces it where the "
                                       "route is in its table")
            break
    for why in wrong_calls(router):
        reasons.add(why)
    for neighbor in router.all_neighbors():
        reasons.attempt(check_detection, router, neighbor)
    check_names(router)
    waiting(router)
    return router, reasons
