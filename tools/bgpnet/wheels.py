"""Dispute wheels among the paths that can come to routers: a small one, where there is one."""
from __future__ import annotations

from collections import deque
from dataclasses import replace
from typing import Deque, Dict, List, Mapping, Sequence, Tuple

from bgpnet.answers import Rim
from bgpnet.network import Path

# A spoke is a router with one of its paths; an arc is the spoke that it leads to, with how many rims are on it.
Arc = Tuple[Path, int]
Arcs = Dict[Path, List[Arc]]
# How many steps of the search for wheels are tried.
MOST_WALKED = 2_000_000


class Spokes:
    """The graph of spokes: a router with one of its paths. From a spoke an arc leads to the same router's next better
    path, and to each router on its path with the rest of it. A circle in it is a dispute wheel."""

    def __init__(self, paths: Mapping[int, Sequence[Path]]) -> None:
        self.paths = paths
        self.places = {path: place for own in paths.values() for place, path in enumerate(own)}
        arcs = {path: self.arcs(path) for path in self.places}
        self.core, self.walked = self.circling(arcs), 0

    def better(self, path: Path) -> Path | None:
        place = self.places[path]
        return self.paths[path[0]][place - 1] if place else None

    def arcs(self, path: Path) -> list[Arc]:
        """The spokes that arcs lead to, each with how many rims are on the arc."""
        better = self.better(path)
        return ([(better, 0)] if better else []) + [(path[at:], 1) for at in range(1, len(path) - 1)]

    @staticmethod
    def circling(arcs: Arcs) -> Arcs:
        """The arcs without the spokes from which, or to which, no arc leads, until none is left of these."""
        for _ in range(2):
            turned: Arcs = {path: [] for path in arcs}
            for path, targets in arcs.items():
                for target, rims in targets:
                    turned[target].append((path, rims))
            waits = {path: len(targets) for path, targets in arcs.items()}
            ends = [path for path, targets in arcs.items() if not targets]
            for end in ends:
                for path, _ in turned[end]:
                    waits[path] -= 1
                    if not waits[path]:
                        ends.append(path)
            left = set(arcs) - set(ends)
            arcs = {path: [arc for arc in turned[path] if arc[0] in left] for path in arcs if path in left}
        return arcs

    def some_circle(self) -> list[Path]:
        """A circle, by walking until a spoke comes again."""
        path = next(iter(self.core))
        seen: dict[Path, int] = {}
        while path not in seen:
            seen[path] = len(seen)
            path = self.core[path][0][0]
        return list(seen)[seen[path]:]

    def circle_through(self, start: Path) -> list[Path] | None:
        """A circle with the fewest rims through a spoke, or None."""
        before: dict[Path, Path] = {}
        waiting: Deque[Arc] = deque([(start, 0)])
        done: set[Path] = set()
        while waiting:
            path, rims = waiting.popleft()
            if path in done:
                continue
            done.add(path)
            for target, more in self.core[path]:
                self.walked += 1
                if target == start:
                    circle = [path]
                    while circle[-1] != start:
                        circle.append(before[circle[-1]])
                    return circle[::-1]
                if target not in before or more == 0 and target not in done:
                    before[target] = path
                    (waiting.append if more else waiting.appendleft)((target, rims + more))
        return None

    def wheel(self) -> list[Rim]:
        """The rims of a dispute wheel, a small one, or none."""
        if not self.core:
            return []
        best = self.rims(self.some_circle())
        for path in self.core:
            if self.walked > MOST_WALKED:
                break
            circle = self.circle_through(path)
            best = min(best, self.rims(circle), key=len) if circle else best
        return best

    def rims(self, circle: Sequence[Path]) -> list[Rim]:
        """The rims of a circle: where its arcs leave a router. A router whose path is the rest of the one before has no
        rim of its own."""
        turned = [(path, circle[(at + 1) % len(circle)]) for at, path in enumerate(circle)]
        first = next(at for at, (path, target) in enumerate(turned) if path[0] == target[0])
        rims: list[Rim] = []
        spoke: Path | None = None
        for path, target in turned[first:] + turned[:first]:
            if path[0] == target[0]:
                spoke = spoke or path
            elif spoke:
                rims.append(Rim(spoke, path, target[0]))
                spoke = None
            else:
                rims[-1] = replace(rims[-1], through=target[0])
        least = rims.index(min(rims))
        return rims[least:] + rims[:least]
