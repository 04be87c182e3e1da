"""What the program says of a network behind the first orders of a schedule, by its words `play`, `trace` and
`check`."""
from __future__ import annotations

from collections import Counter
from dataclasses import dataclass
from typing import Collection, Iterable, Mapping, Sequence, Tuple

from bgpnet.answers import read_check, read_check_all, snapshot_of
from bgpnet.network import (Ends, Network, Path, Prefix, RouteDict, lines_text, parts_of, path_text, read_number,
                            read_path, routes_of, words_of)
from bgpnet.program import Program, Refusal, Refused
from bgpnet.tracing import Moment, events_of, orders_of, rest_bound

# The path of each router for one prefix; a router that would move, with its path and its best one; and a line of
# `check` behind words, with whether it is stable.
Chosen = Mapping[int, Path]
Move = Tuple[int, Path, Path]
Said = Tuple[str, bool]


def chosen_prefix(network: Network, word: str | None) -> Prefix | None:
    """The prefix that a word names, without one the first; none of a network without origins."""
    if word is None:
        return next(iter(network.origins), None)
    try:
        prefix: Prefix | None = Prefix.named(word)
    except Refusal:
        prefix = None
    if prefix not in network.origins:
        raise Refusal(f"no origin has the prefix {word}")
    return prefix


@dataclass(frozen=True)
class State:
    """The routes of every router, by router and prefix, the lines of the decided snapshots, the links, as sets of two
    routers, whose session is not up, those over which nothing came for some seconds, with how many, and how many
    UPDATEs were told and not heard, by prefix."""

    routes: RouteDict
    snapshots: Sequence[str]
    broken: Collection[Ends]
    silent: Mapping[Ends, int]
    waiting: Counter[Prefix]


def state_behind(program: Program, text: str, name: str) -> State:
    """The state behind the orders of a text: the routes of `play`, and the sessions as `trace` says."""
    lines = program.answer(["play"], text, name)
    network = Network(parts_of(text)[0])
    moment = Moment(network)
    for event in events_of(program.trace(text, name), orders_of(text)):
        moment.pass_event(event)
    at = lines.index("now")
    snapshots = [line for line in lines[:at] if line.startswith("snapshot")]
    return State(routes_of(lines[at + 1:]), snapshots, moment.broken, moment.silent, moment.waiting)


def check_all_up(program: Program, network: Network, text: str, name: str) -> None:
    """Refuses a text behind whose schedule, when the network rests, a session is not up."""
    broken = state_behind(program, f"{text}\nrounds {rest_bound(network)}\n", name).broken
    if broken:
        down = ", ".join(network.link_text(link) for link in network.links if frozenset(link) in broken)
        raise Refusal(f"{name}: behind its schedule not every session is up: {down}")


@dataclass(frozen=True)
class Judged:
    """What a picture says of the paths of a prefix: whether they are stable, in words, and the least router that would
    move, where one would."""

    text: str
    is_stable: bool
    first: Move | None = None


def judgement(program: Program, network: Network, prefix: Prefix, chosen: Chosen,
              without: Collection[Ends] = ()) -> Judged | None:
    """What `check` says of the paths of one prefix in the network without some links; in its place a path over one of
    these links, where a router has one; nothing where the prefix is not originated, where what is left is not
    connected, or where a path is not permitted."""
    origin = network.origins[prefix]
    gone = over_link(network, chosen, without)
    if not chosen.get(origin):
        return None
    if gone or len(reached(network, origin, without)) < len(network.routers):
        return gone
    routes = {(router, prefix): chosen.get(router, ()) for router in network.routers}
    try:
        line = judgements(program, network, routes, without, "check", [prefix])[prefix][0]
        said = read_check([line.split(": ", 1)[1]])
    except Refused:
        return None
    links = ", ".join(network.link_text(link) for link in network.links if frozenset(link) in without)
    left = f" without link{'s' * (', ' in links)} {links}" if links else ""
    if said.router is None:
        return Judged(f"stable{left}", True)
    return Judged(f"unstable{left}: {network.name_of(said.router)} has {network.path_text(said.has)}, "
                  f"{network.path_text(said.best)} is better", False, (said.router, said.has, said.best))


def over_link(network: Network, chosen: Chosen, without: Collection[Ends]) -> Judged | None:
    """The first path over one of some links, in words."""
    for router in network.routers:
        path = chosen.get(router, ())
        if gone := next((link for link in zip(path, path[1:]) if frozenset(link) in without), None):
            return Judged(f"{network.name_of(router)} has {network.path_text(path)}, over the link "
                          f"{network.link_text(gone)} that is down", False)
    return None


def moves(program: Program, network: Network, prefix: Prefix, chosen: Chosen, without: Collection[Ends]) -> list[Move]:
    """Each router that would move, with its path and its best one, as `check --all` says."""
    routes = {(router, prefix): chosen.get(router, ()) for router in network.routers}
    text = part_text(network, frozenset(network.routers), [prefix], routes, without)
    found = read_check_all(program.answer(["check", "--all"], text, "an assignment"))
    return [(said.router, said.has, said.best) for said in found[prefix] if said.router is not None]


def reached(network: Network, router: int, without: Collection[Ends] = ()) -> frozenset[int]:
    """The routers that links lead to from a router, itself too, over links that are not left out."""
    return frozenset(network.distances(router, without))


def part_text(network: Network, part: frozenset[int], prefixes: Collection[Prefix],
              routes: Mapping[tuple[int, Prefix], Path], without: Collection[Ends]) -> str:
    """The input of `check` for the paths of some prefixes, in the part of a network that some routers are, without
    some links. A rule keeps its paths over these routers."""
    lines = []
    for line in network.lines:
        words = words_of(line)
        if words[0] == "rank":
            words[3:] = [word for word in words[3:] if part.issuperset(read_path(word))]
        if words[0] in ("router", "rank") and read_number(words[1]) not in part:
            continue
        if words[0] == "origin" and Prefix.read(words[2]) not in prefixes:
            continue
        if words[0] == "link":
            link = frozenset(map(read_number, words[1:]))
            if link in without or not link <= part:
                continue
        lines.append(" ".join(words))
    lines.append("assignment")
    lines += [f"path {router} {prefix} {path_text(routes[router, prefix])}" for prefix in prefixes
              for router in network.routers if router in part]
    return lines_text(lines)


def judgements(program: Program, network: Network, routes: Mapping[tuple[int, Prefix], Path],
               without: Collection[Ends] = (), about: str = "check",
               prefixes: Iterable[Prefix] | None = None) -> dict[Prefix, Said]:
    """What `check` says of the routes of prefixes (without a list, of all) in the network without some links, as words
    that begin with `about`, and whether they are stable. Where that network is not connected it is asked of the part of
    the origin; elsewhere no path at all is stable, and so it is of a prefix that is not originated."""
    said: dict[Prefix, Said] = {}
    parts: dict[frozenset[int], list[Prefix]] = {}
    for prefix in network.origins if prefixes is None else prefixes:
        origin = network.origins[prefix]
        part = reached(network, origin, without) if routes[origin, prefix] else frozenset()
        stray = [path for path in (routes[router, prefix] for router in network.routers) if not part.issuperset(path)]
        if stray:
            said[prefix] = f"{stray[0][0]} has {path_text(stray[0])}, and nothing leads there", False
        elif part:
            parts.setdefault(part, []).append(prefix)
        else:
            said[prefix] = f"{origin} does not originate it", True

    def ask(part: frozenset[int], prefixes: Collection[Prefix]) -> str:
        return program.answer(["check"], part_text(network, part, prefixes, routes, without), "an assignment")[0]

    for part, prefixes in parts.items():
        are_stable = ask(part, prefixes) == "stable"
        for prefix in prefixes:
            line = "stable" if are_stable else ask(part, [prefix])
            said[prefix] = f"{about}: {line}", line == "stable"
    return said


def judged_captions(program: Program, network: Network, prefix: Prefix, chosen: Chosen, without: Collection[Ends],
                    waiting: int) -> tuple[list[Move], list[tuple[str, bool | None]]]:
    """The routers that would move where the paths of a prefix are not stable; and what is said below a picture: the
    judgement, if there is one, who would move too, and how many UPDATEs are on their way. Where some are, nothing is at
    its end, so that a stable judgement is no good news."""
    judged = judgement(program, network, prefix, chosen, without)
    unstable = moves(program, network, prefix, chosen, without) if judged and judged.first else []
    on_the_way = f"{waiting} UPDATE{'s' * (waiting > 1)} on {'their' if waiting > 1 else 'its'} way"
    if not judged:
        return unstable, [(on_the_way, None)] * bool(waiting)
    is_good = None if judged.is_stable and waiting else judged.is_stable
    lines: list[tuple[str, bool | None]] = [(judged.text + f", and {on_the_way}" * bool(waiting), is_good)]
    others = ", ".join(network.name_of(router) for router, _, _ in unstable[1:])
    return unstable, lines + [(f"would move too: {others}", False)] * bool(others)


def verdict_text(network: Network, line: str) -> str:
    """How a snapshot came out, in words, by the line of `play`."""
    found = snapshot_of(line, ())
    one, other = (network.name_of(router) if router else "" for router in (found.router, found.peer))
    why = {"pending": f"{one} has still to choose or to tell",
           "inflight": f"an UPDATE from {other} to {one} is in flight",
           "mismatch": f"{one} and {other} recorded two connections", "closed": f"session {one}-{other} closed",
           "notup": f"session {one}-{other} is down", "superseded": f"{one} began a later one"}.get(found.why or "", "")
    if found.verdict == "abandoned":
        return f"no snapshot {found.number}: {why}"
    return f"snapshot {found.number} {found.verdict}" + f", {why}" * bool(why)
