"""What is left of a network when links are down: in how many ends it can rest, and whether every order comes to rest;
and schedules that lead to routes that are given."""
from __future__ import annotations

from typing import Collection, Mapping

from bgpnet.answers import read_safe, read_stable, routes_behind
from bgpnet.network import Ends, Network, Path, Prefix, RouteDict, lines_text, originations, starts
from bgpnet.orders import at_random, race_of
from bgpnet.playing import part_text, reached
from bgpnet.program import Program, Refusal
from bgpnet.tracing import rest_bound

# How many orders are tried that may lead to routes that are given.
MOST_TRIED = 200


def part_of(network: Network, prefix: Prefix, without: Collection[Ends]) -> str:
    """The text of the part of a network, without some links, that the origin of a prefix is in, with this prefix."""
    part = reached(network, network.origins[prefix], without)
    none: RouteDict = {(router, prefix): () for router in network.routers}
    text = part_text(network, part, [prefix], none, without)
    return text[:text.index("assignment\n")]


def counted(program: Program, text: str) -> int | None:
    """How many stable assignments a network of one prefix has, None where a limit was met, or it is refused."""
    status, lines = program.ask(["stable"], text)
    return None if status == 1 else read_stable(lines)[0].count


def ends_left(program: Program, network: Network, without: Collection[Ends] = frozenset(),
              known: dict[str, int | None] | None = None) -> dict[Prefix, int | None]:
    """How many stable assignments there are of each prefix in what is left of a network, None where a limit was met.
    Prefixes of one text are asked about once; `known` has what was asked before."""
    known = {} if known is None else known
    found: dict[Prefix, int | None] = {}
    for prefix in network.origins:
        text = part_of(network, prefix, without)
        key = text.replace(str(prefix), "PREFIX")
        if key not in known:
            known[key] = counted(program, text)
        found[prefix] = known[key]
    return found


def is_safe(program: Program, network: Network, prefix: Prefix,
            without: Collection[Ends] = frozenset()) -> bool | None:
    """Whether the word `safe` of the program says that every order of what is left comes to rest; None where it does
    not say so."""
    try:
        status, lines = program.ask(["safe"], part_of(network, prefix, without))
    except Refusal:
        return None
    return status != 1 and any(one.safe for one in read_safe(lines)) or None


def start_in(program: Program, network: Network, wanted: Mapping[tuple[int, Prefix], Path]) -> list[str]:
    """The orders of a schedule behind which a network rests in routes that are given, by router and prefix."""
    head = [*starts(network), f"rounds {rest_bound(network)}", *originations(network)]
    for seed in range(MOST_TRIED):
        race = at_random(network, seed, race_of(network)) if seed else []
        lines = [*head, *race, f"rounds {rest_bound(network)}"]
        routes = routes_behind(program, network.text + lines_text(["schedule", *lines]), "an order")
        if all(routes.get(key, ()) == path for key, path in wanted.items()):
            return lines
    raise Refusal(f"none of {MOST_TRIED} orders of the network leads to the routes that are given")
