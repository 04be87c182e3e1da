"""Where a network comes to rest when it becomes another one: the same routers, with other paths or links."""
from __future__ import annotations

import random
from collections import Counter
from typing import Any, Iterator, Tuple

from bgpnet.answers import changes_json
from bgpnet.live import Chooser
from bgpnet.network import Network, Path, Prefix, RouteDict
from bgpnet.playing import judgement
from bgpnet.program import Program, Refusal

# How often all routers choose, at most, before it is said that they do not rest.
MOST_ROUNDS = 200
# The path of each router in which a prefix rests.
End = Tuple[Tuple[int, Path], ...]


def check_alike(network: Network, other: Network, name: str) -> None:
    """Refuses a network that has other routers, names or origins."""
    if other.routers != network.routers or other.called != network.called:
        raise Refusal(f"{name}: other routers than those of the first network: give both their names in one order")
    if other.origins != network.origins:
        raise Refusal(f"{name}: other origins than those of the first network")


def end_of(network: Network, prefix: Prefix, routes: RouteDict, seed: int = 0) -> End | None:
    """The paths in which a network rests that begins in the routes of another one, or None. Those that routers
    may not use, or that no peer has, are lost at once; then one after the other takes the best that its peers
    have, with a seed in a random order, else in that of their numbers."""
    draw, chooser = random.Random(seed), Chooser(network, prefix)
    chosen: dict[int, Path] = {
        router: path if len(path) < 2 or path[1] in network.peers[router] and
        chooser.preferences[router].permits(path) else ()
        for router in network.routers for path in [routes[router, prefix]]}

    def best(router: int) -> Path:
        return chooser.best(router, [chosen[peer] for peer in network.peers[router]])

    for _ in range(MOST_ROUNDS):
        if all(best(router) == path for router, path in chosen.items()):
            return tuple(chosen.items())
        order = [int(draw.random() * len(network.routers)) for _ in network.routers] if seed else \
            list(range(len(network.routers)))
        for at in order:
            chosen[network.routers[at]] = best(network.routers[at])
    return None


def ends_of(network: Network, prefix: Prefix, routes: RouteDict, orders: int) -> tuple[dict[End, int], int]:
    """The ends of all orders that are tried, each with their number, and how many do not rest."""
    found: Counter[End | None] = Counter(end_of(network, prefix, routes, seed) for seed in range(orders + 1))
    restless = found.pop(None, 0)
    return {end: number for end, number in found.most_common() if end is not None}, restless


class Change:
    """What becomes of a prefix: its ends, how many orders do not rest, and what the program says of each end."""

    def __init__(self, program: Program, network: Network, prefix: Prefix, routes: RouteDict, orders: int) -> None:
        self.prefix, self.network, self.routes, self.orders = prefix, network, routes, orders + 1
        self.ends, self.restless = ends_of(network, prefix, routes, orders)
        self.said = [judgement(program, network, prefix, dict(end)) for end in self.ends]

    def moved(self, end: End) -> list[tuple[int, Path, Path]]:
        """The routers whose path is another in an end, with both."""
        return [(router, self.routes[router, self.prefix], path) for router, path in end
                if path != self.routes[router, self.prefix]]

    @property
    def is_confirmed(self) -> bool:
        return all(said is None or said.is_stable for said in self.said)

    @property
    def lost(self) -> list[int]:
        """The routers that have no path in an end, and had one."""
        return sorted({router for end in self.ends for router, old, new in self.moved(end) if old and not new})

    def lines(self) -> Iterator[str]:
        network, of = self.network, f"  {self.prefix} of {self.network.router_text(self.network.origins[self.prefix])}"
        if not self.ends:
            yield f"{of}: no rest in {self.orders} orders"
        for (end, count), said in zip(self.ends.items(), self.said):
            moved, judged = self.moved(end), f"; check: {said.text}" if said else ""
            changes = f"{len(moved)} router{'s' * (len(moved) != 1)} change{'s' * (len(moved) == 1)}" if moved else \
                "nothing changes"
            yield f"{of}: {changes}{judged}" + (f"; in {count} of {self.orders} orders" if count < self.orders else "")
            for router, old, new in moved:
                yield f"    {network.router_text(router)}: {network.path_text(old)}, now {network.path_text(new)}"
            without = [network.router_text(router) for router, path in end if not path]
            if without:
                yield f"    without a route: {', '.join(without)}"
        if self.ends and self.restless:
            yield f"{of}: no rest in {self.restless} of {self.orders} orders"

    def object(self) -> dict[str, Any]:
        """The same as JSON has it."""
        return {"prefix": str(self.prefix), "orders": self.orders, "restless": self.restless, "lost": self.lost,
                "ends": [{"orders": count, "check": said and said.text, "changed": changes_json(self.moved(end))}
                         for (end, count), said in zip(self.ends.items(), self.said)]}
