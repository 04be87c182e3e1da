"""The paths of a prefix that can come to routers, what these choose, and what stands in rules that never can come."""
from __future__ import annotations

from typing import Dict, Iterable, Iterator, Mapping, Optional

from bgpnet.network import LONGEST_PATH, Ends, Link, Network, Path, Prefix

# The paths of each router that can come, by prefix, None where they are not listed.
Live = Mapping[Prefix, Optional[Dict[int, list[Path]]]]

# How many paths of a prefix are listed.
MOST_PATHS_OF_PREFIX = 20000


class GaveUp(Exception):
    """A search has more to try than it may, with what it says of that."""


class Preference:
    """Which paths a router permits for a prefix, and in what order: those of its rule, or without one every path, the
    shorter first, then by the numbers. That a path is simple, and how long it may be, is not looked at."""

    def __init__(self, network: Network, router: int, prefix: Prefix) -> None:
        ranked = network.ranked(router, prefix)
        self.places = None if ranked is None else {path: place for place, path in enumerate(ranked)}

    def permits(self, path: Path) -> bool:
        return self.places is None or path in self.places

    def key(self, path: Path) -> tuple[int, Path]:
        """By this a better path comes before another one."""
        return (len(path), path) if self.places is None else (self.places[path], ())


class Chooser:
    """What the routers of a network choose for a prefix of what their peers have."""

    def __init__(self, network: Network, prefix: Prefix) -> None:
        self.origin = network.origins[prefix]
        self.preferences = {router: Preference(network, router, prefix) for router in network.routers}

    def best(self, router: int, heard: Iterable[Path]) -> Path:
        """The best of the paths on which a router hears of the prefix, or none."""
        if router == self.origin:
            return (router,)
        own = self.preferences[router]
        found = [(router, *path) for path in heard if path and router not in path and len(path) < LONGEST_PATH]
        return min(filter(own.permits, found), key=own.key, default=())


def live_paths(network: Network, prefix: Prefix) -> dict[int, list[Path]]:
    """The paths of each router that can come, best first: permitted at each of their routers, over links that are
    there. It goes outwards from the origin, so that no other path is looked at."""
    preferences = {router: Preference(network, router, prefix) for router in network.routers}
    live: dict[int, list[Path]] = {router: [] for router in network.routers}
    found: list[Path] = [(network.origins[prefix],)]
    for path in found:
        if len(found) > MOST_PATHS_OF_PREFIX:
            raise GaveUp(f"more than {MOST_PATHS_OF_PREFIX} paths can come: give routers rank lines")
        live[path[0]].append(path)
        if len(path) < LONGEST_PATH:
            found += [(peer, *path) for peer in network.peers[path[0]]
                      if peer not in path and preferences[peer].permits((peer, *path))]
    for router, paths in live.items():
        paths.sort(key=preferences[router].key)
    return live


def is_without_rules(network: Network, prefix: Prefix) -> bool:
    """Whether no router beside the origin has a rule for a prefix."""
    origin = network.origins[prefix]
    return all(network.rule(router, prefix) is None for router in network.routers if router != origin)


def shortest_paths(network: Network, prefix: Prefix) -> dict[int, Path]:
    """The path that each router takes where none has a rule for the prefix, none where no path is short enough: the
    shortest, and of those the least."""
    origin = network.origins[prefix]
    found: dict[int, Path] = {origin: (origin,)}
    last = [origin]
    for _ in range(LONGEST_PATH - 1):
        nearer = {router: path for router, path in found.items() if router in last}
        last = sorted({peer for router in last for peer in network.peers[router] if peer not in found})
        for router in last:
            found[router] = (router, *nearer[min(peer for peer in network.peers[router] if peer in nearer)])
    return {router: found.get(router, ()) for router in network.routers}


def listed_paths(network: Network, prefix: Prefix) -> dict[int, list[Path]] | None:
    """The paths of each router that can come; of a prefix of no rule one of each. None where these are too many."""
    if is_without_rules(network, prefix):
        return {router: [path] if path else [] for router, path in shortest_paths(network, prefix).items()}
    try:
        return live_paths(network, prefix)
    except GaveUp:
        return None


def warnings(network: Network, live: Live) -> Iterator[tuple[int | None, str]]:
    """What is said of each path of a rule that can never come, in place of them of each link that is not there, of each
    rule that is for nothing, and of the routers without a path, with the line of the rule. Nothing is said of a prefix
    whose paths are not listed."""
    missing: dict[Ends, dict[tuple[int, Path], Link]] = {}
    for line, path, why in hopeless_paths(network, live):
        if isinstance(why, str):
            yield line, f"{network.path_text(path) + ' can never come: ' if path else ''}{why}"
        else:
            missing.setdefault(frozenset(why), {}).setdefault((line, path), why)
    for paths in missing.values():
        ((line, path), link), more = next(iter(paths.items())), len(paths) - 1
        others = f", nor can {more} other path{'s' * (more > 1)} of rules" if more else ""
        said = " ".join(map(network.name_of, link))
        yield line, f"{network.path_text(path)} can never come{others}: there is no link {said}"
    for prefix in network.origins:
        listed = live[prefix]
        without = [router for router in network.routers if listed and not listed[router]]
        if without:
            yield None, f"no path for {prefix} can ever come to: {', '.join(map(network.name_of, without))}"


def hopeless_paths(network: Network, live: Live) -> Iterator[tuple[int, Path, str | Link]]:
    """The line of each rule for nothing, or with a path that can never come: that path, and why, a link where that is
    not there. The path is empty where the rule is for nothing."""
    for router in network.routers:
        for rule in network.rules[router]:
            served = [prefix for prefix in network.origins if network.rule(router, prefix) is rule]
            if not served:
                yield rule.line, (), "no prefix that an origin has goes by this rule"
            for path in rule.paths if served else []:
                ended = [prefix for prefix in served if network.origins[prefix] == path[-1]]
                if not ended:
                    yield rule.line, (), (f"{network.path_text(path)}: {network.name_of(path[-1])} is no origin of a "
                                            "prefix of this rule")
                for prefix in ended:
                    listed = live[prefix]
                    if listed and path not in listed[router]:
                        yield rule.line, path, obstacle(network, listed, path)


def obstacle(network: Network, live: Mapping[int, list[Path]], path: Path) -> str | Link:
    """Why a path can't come: a link that is not there, or a router on the way that does not permit the rest."""
    at = next(at for at in range(len(path) - 2, -1, -1) if path[at:] not in live[path[at]])
    if path[at + 1] not in network.peers[path[at]]:
        return path[at], path[at + 1]
    return f"router {network.name_of(path[at])} does not permit {network.path_text(path[at:])}"
