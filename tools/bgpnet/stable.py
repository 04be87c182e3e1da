"""What `bgpnet stable` and `bgpnet safe` say of the paths that can come to routers."""
from __future__ import annotations

import itertools
from typing import Collection, Mapping, Sequence

from bgpnet.answers import read_safe, read_stable
from bgpnet.live import GaveUp
from bgpnet.network import GREATEST_OF_TWO_OCTETS, MOST_PATHS, Path, lines_text, path_text
from bgpnet.program import Program, Refusal

# The prefix that the program is asked about, and the most choices of a dispute, if no more are asked for.
PREFIX, MOST_CHOICES = "10.0.0.0/8", 1000


def network_text(paths: Mapping[int, Sequence[Path]], origin: int, free: Collection[int] = ()) -> str:
    """The network of the routers that have paths, best first, and of the links of these paths. A router of `free`
    permits every path, the shorter before the longer, and gets no rule where one has no room for them."""
    routers = sorted({router for own in paths.values() for path in own for router in path})
    links = {tuple(sorted(link)) for own in paths.values() for path in own for link in zip(path, path[1:])}
    lines = ["asn 4"] if routers[-1] > GREATEST_OF_TWO_OCTETS else []
    lines += [f"router {router} 10.0.0.{place}" for place, router in enumerate(routers)]
    lines += [f"link {one} {other}" for one, other in sorted(links)] + [f"origin {origin} {PREFIX}"]
    for router in routers:
        own = paths.get(router, ())
        if len(own) <= MOST_PATHS:
            lines.append(f"rank {router} {PREFIX} {' '.join(map(path_text, own))}")
        elif router not in free:
            raise GaveUp(f"router {router} has more than {MOST_PATHS} paths")
    return lines_text(lines)


def stable_assignments(program: Program, paths: Mapping[int, Sequence[Path]], origin: int, most: int,
                       free: Collection[int] = ()) -> tuple[list[dict[int, Path]], bool]:
    """The stable assignments of paths that can come, `most` and one more at most, and whether these are all. It gives
    up where the program met a limit."""
    words = ["stable", "--most", str(max(MOST_CHOICES, most + 1))]
    status, lines = program.ask(words, network_text(paths, origin, free))
    if status == 1:
        raise Refusal(f"bgpnet {' '.join(words)}: {lines[0]}")
    answer, = read_stable(lines)
    if answer.unknown:
        raise GaveUp(f"`bgpnet stable` met a limit: {' '.join([answer.unknown, *map(str, answer.routers)])}")
    none: dict[int, Path] = {router: () for router in paths}
    ranked = answer.ranked(lambda router, path: paths[router].index(path))
    found = [{**none, **chosen} for chosen in itertools.islice(ranked.assignments(), most + 1)]
    return found, len(found) <= most


def is_safe(program: Program, paths: Mapping[int, Sequence[Path]], origin: int,
            free: Collection[int] = ()) -> bool | None:
    """Whether the paths that can come have no dispute wheel, as `bgpnet safe` says; None where it says nothing, since a
    router of `free` has more paths than a rule."""
    status, lines = program.ask(["safe"], network_text(paths, origin, free))
    if status == 1:
        raise Refusal(f"bgpnet safe: {lines[0]}")
    return None if status else any(one.safe for one in read_safe(lines))
