"""Failures of a network that is played: what fails, the states behind it, and how other orders of the same events
end."""
from __future__ import annotations

import dataclasses
from dataclasses import dataclass
from typing import Collection, List, Mapping, Sequence, Tuple

from bgpnet.answers import routes_behind
from bgpnet.network import Ends, Link, Network, Path, Prefix, at_both_ends, lines_text, originations, starts
from bgpnet.orders import at_random, race_of
from bgpnet.playing import Said, judgements, reached
from bgpnet.program import Program, Refusal
from bgpnet.tracing import Again, Stage, outcome_of, rest_bound, stages_of

# A stage of a schedule: its title, and its orders; and routes as they stand at an end, by router and prefix.
Titled = Tuple[str, List[str]]
End = Tuple[Tuple[Tuple[int, Prefix], Path], ...]
# The octets of a KEEPALIVE; and the rounds in which a state is looked for that comes again.
KEEPALIVE = 19
MOST_LOOKED_AT = 20_000


class Failure:
    """What fails: links, of which both ends see it, or one of which they are not told (`silent`), or those of a router
    that crashes."""

    def __init__(self, network: Network, links: Sequence[Link] = (), crash: int | None = None,
                 silent: bool = False) -> None:
        self.network, self.crash = network, crash
        self.links = list(links) or [link for link in network.links if crash in link]
        self.silence = silence(network, links[0]) if silent else []

    def name(self) -> str:
        if self.crash:
            return f"router {self.network.name_of(self.crash)}"
        return f"link{'s' * (len(self.links) > 1)} {', '.join(map(self.network.link_text, self.links))}"

    def title(self) -> str:
        """What happens, in words."""
        if self.silence:
            return f"{self.name()} falls silent, and {self.network.hold} seconds later its ends know"
        return self.name() + (" crashes" if self.crash else " fails" if len(self.links) == 1 else " fail")

    def title_back(self) -> str:
        return self.name() + (" is back" if self.crash or len(self.links) == 1 else " are back")

    def orders(self) -> list[str]:
        """The orders by which it fails."""
        if self.crash:
            return [f"restart {self.crash}"]
        if self.silence:
            return self.silence
        return at_both_ends("stop", self.links)

    def orders_back(self) -> list[str]:
        """The orders by which it comes back."""
        return at_both_ends("start", self.links) + [
            f"originate {router} {prefix}" for prefix, router in self.network.origins.items() if router == self.crash]


def silence(network: Network, silent: Link) -> list[str]:
    """The orders of a hold time in which nothing crosses a link: seconds pass, and KEEPALIVEs over the other links."""
    if not network.hold:
        raise Refusal("hold 0: no timer runs, so nobody finds out that a link is silent")
    beat, pieces = network.hold // 3, -(-KEEPALIVE // network.cut)
    passing, lines = [], []
    for link in network.links:
        for end, other in (link, link[::-1]) if link != silent else ():
            passing += [f"put {end} {other}", f"take {other} {end}"] * pieces + [f"handle {other} {end}"]
    for seconds in (beat, beat, beat, network.hold - 3 * beat):
        if seconds:
            lines += [f"ticks {seconds}"] + passing * -(-seconds // beat)
    return lines


# ---- states

@dataclass(frozen=True)
class StateBehind:
    """What a network is like behind a stage: its routes, by router and prefix, what was seen on the way, and what had
    failed, if anything had; and where it does not rest, which state comes again and again, if one is seen to, and how
    other orders end."""

    routes: Mapping[tuple[int, Prefix], Path]
    stage: Stage
    failure: Failure | None = None
    again: Again | None = None
    others: Others | None = None

    @property
    def without(self) -> frozenset[Ends]:
        """The links that are down, as sets of two routers."""
        return frozenset(frozenset(link) for link in self.failure.links) if self.failure else frozenset()

    @property
    def crashed(self) -> int | None:
        return self.failure.crash if self.failure else None

    @property
    def about(self) -> str:
        """How a judgement of its routes begins."""
        return f"check without {self.failure.name()}" if self.failure else "check"


@dataclass(frozen=True)
class Others:
    """How so many random orders of a stage end: the seeds of those in which the network rests, by the routes in which
    it does, and how many do not rest within the bound."""

    ends: Mapping[End, list[int]]
    restless: int

    @property
    def played(self) -> int:
        return sum(map(len, self.ends.values())) + self.restless

    def __str__(self) -> str:
        rest, ends = self.played - self.restless, len(self.ends)
        named = f"seeds {self.played}" if self.played == 1 else f"seeds 1 to {self.played}"
        if not rest:
            return f"nor in {self.played} random orders ({named})"
        where = "" if rest == 1 else ", all in the same routes" if ends == 1 else f", in {ends} ends"
        return f"in {rest} of {self.played} random orders ({named}) it rests{where}"


class Player:
    """Plays a network to rest before a failure, behind it, and when all is back. Where it does not rest in the order of
    `rounds`, so many random orders are played too."""

    def __init__(self, program: Program, network: Network, scheduled: list[str] | None = None,
                 orders: int = 0) -> None:
        self.program, self.network, self.bound, self.orders = program, network, rest_bound(network), orders
        self.is_usual = scheduled is None
        self.before: StateBehind | None = None
        self.then: list[Link] = []
        self.first = scheduled if scheduled is not None else [
            "# title: every session comes up", *starts(network), f"rounds {self.bound}",
            "# title: before", *originations(network)]

    def schedule(self, stages: Sequence[Titled], last: list[str] | None = None) -> tuple[list[str], list[int]]:
        """The lines of a schedule of titled stages behind the first, and the numbers of those that end a stage; `last`
        stands in place of the rounds of the last one."""
        lines = ["schedule"]
        places: list[int] = []
        for title, orders in [("", self.first), *stages]:
            rounds = last if last and len(places) == len(stages) else [f"rounds {self.bound}"]
            lines += [f"# title: {title}"] * bool(title) + [*orders, *rounds]
            places.append(len(self.network.lines) + len(lines))
        return lines, places

    def text(self, stages: Sequence[Titled], last: list[str] | None = None) -> str:
        return self.network.text + lines_text(self.schedule(stages, last)[0])

    def states(self, failures: Sequence[tuple[Titled, Failure | None]]) -> list[StateBehind]:
        """The state behind each stage, the first of them that before; of the others each has its failure, or None where
        all is back."""
        stages = [stage for stage, _ in failures]
        seen = stages_of(self.program.trace(self.text(stages), "the schedule"))
        states = []
        for at, place in enumerate(self.schedule(stages)[1]):
            if at or not failures:
                failure = failures[at - 1][1] if at else None
                routes = routes_behind(self.program, self.text(stages[:at]), "the schedule")
                state = StateBehind(routes, seen[place], failure)
                if state.stage.rest is None:
                    again = self.again(stages[:at], state.without, bool(failure and failure.silence))
                    state = dataclasses.replace(state, again=again, others=self.others(stages[:at]))
                states.append(state)
        return states

    def others(self, stages: Sequence[Titled]) -> Others:
        """How random orders of the last stage end."""
        ends: dict[End, list[int]] = {}
        restless = 0
        for seed in range(1, self.orders + 1):
            race = at_random(self.network, seed, race_of(self.network)) + [f"rounds {self.bound}"]
            text, place = self.text(stages, race), self.schedule(stages, race)[1][-1]
            if stages_of(self.program.trace(text, "the schedule"))[place].rest is None:
                restless += 1
                continue
            ends.setdefault(tuple(routes_behind(self.program, text, "the schedule").items()), []).append(seed)
        return Others(ends, restless)

    def again(self, stages: Sequence[Titled], closed: Collection[Ends], silent: bool) -> Again | None:
        """The state that comes again behind the last stage, where one is seen to. Behind a hold time (`silent`) the
        KEEPALIVEs have come."""
        number = min(self.bound, MOST_LOOKED_AT)
        lines, places = self.schedule(stages, ["rounds 1"] * number)
        if stages:
            behind = places[-2] if not silent else places[-1] - number + 1
        elif self.is_usual:
            behind = len(self.network.lines) + lines.index(f"rounds {self.bound}") + 1
        else:
            return None
        text = self.network.text + lines_text(lines)
        ends = range(places[-1] - number + 1, places[-1] + 1)
        outcome = outcome_of(self.program.trace(text, "the schedule"), behind, ends, self.network, closed)
        return outcome if isinstance(outcome, Again) else None

    def failing_stages(self, failure: Failure, back: bool) -> list[tuple[Titled, Failure | None]]:
        """The stages of a failure, each with it, or with nothing where all is back. A second failure comes on top of
        it."""
        stages, both = [((failure.title(), failure.orders()), failure)], failure
        if self.then:
            second = Failure(self.network, [link for link in self.then if link not in failure.links])
            both = Failure(self.network, failure.links + second.links)
            both.crash = failure.crash
            stages.append(((f"then {second.title()}", second.orders()), both))
        back_orders = both.orders_back() if not self.then or not failure.crash else [
            *failure.orders_back(), *(order for order in second.orders_back() if order not in failure.orders_back())]
        return stages + [((both.title_back(), back_orders), None)] * back


# ---- what became of prefixes

Change = Tuple[int, Path, Path]


@dataclass(frozen=True)
class Seen:
    """What became of a prefix in a state, of whose routes `check` says this: the routers whose path is another than in
    the state before it, and those whose path is another than before anything failed, each with the two paths; the
    routers without one, those of them that no links lead to, and those that had one before anything failed; and how
    many UPDATEs were told."""

    origin: int
    said: Said
    changed: Sequence[Change]
    other: Sequence[Change]
    without: Sequence[int]
    cut_off: Sequence[int]
    lost: Sequence[int]
    updates: int


def alike_key(seen: Seen) -> str:
    """What prefixes have in common that behave alike."""
    return str((seen.origin, seen.said, seen.changed, seen.other, seen.without, seen.cut_off))


def changes_of(network: Network, prefix: Prefix, old: StateBehind, new: StateBehind) -> list[Change]:
    """The routers whose path is another, each with the old and the new one."""
    paths = ((router, old.routes[router, prefix], new.routes[router, prefix]) for router in network.routers)
    return [change for change in paths if change[1] != change[2]]


def seen_in(program: Program, network: Network, state: StateBehind, last: StateBehind,
            first: StateBehind) -> dict[Prefix, Seen]:
    """What became of each prefix in a state; `last` is the state before it, `first` that before anything failed."""
    said = judgements(program, network, state.routes, state.without, state.about)
    found = {}
    for prefix, origin in network.origins.items():
        part = reached(network, origin, state.without)
        without = [router for router in network.routers
                   if not state.routes[router, prefix] and router != state.crashed]
        found[prefix] = Seen(
            origin, said[prefix], changes_of(network, prefix, last, state), changes_of(network, prefix, first, state),
            without, [router for router in without if router not in part],
            [router for router in without if first.routes[router, prefix]], state.stage.told[prefix])
    return found
