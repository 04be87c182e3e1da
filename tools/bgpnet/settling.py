"""Whether a network comes to rest: the stable assignments of each prefix, a dispute wheel, how orders of events end,
and which timing decides."""
from __future__ import annotations

from dataclasses import asdict, dataclass
from typing import Any, Dict, Iterable, Iterator, List, Mapping, NamedTuple, Sequence, Tuple, Union

from bgpnet import jobs
from bgpnet.answers import Rim, read_play, routes_behind
from bgpnet.live import GaveUp, is_without_rules, listed_paths, live_paths, shortest_paths
from bgpnet.network import Link, Network, Path, Prefix, lines_text, originations, path_text, starts
from bgpnet.orders import MOST_LINES, at_random, lock_step, race_of
from bgpnet.playing import Said, judgements
from bgpnet.program import Program, Refusal, grouped
from bgpnet.stable import is_safe, stable_assignments
from bgpnet.timing import End, HearingOrder, parting, schedule_of, sentence, shortest_orders
from bgpnet.tracing import Again, Kind, Rest, counts_of, outcome_of, rest_bound, rows_of, stages_of
from bgpnet.wheels import Spokes

# A state is looked for that comes again in so many rounds, first in fewer.
FIRST_LOOK, MOST_LOOKED_AT = 1000, 20_000

# The rounds behind a snapshot, and two more for each router.
LATER = 40

# What an order never comes to, and what is not seen.
NEVER, UNSEEN = "never rests", "no verdict"

# The word of an order, or its seed; the routes in which it settles; and of an order that settles how many events and
# UPDATEs there were, and how many rounds.
Word = Union[str, int]
Routes = Tuple[Tuple[Tuple[int, Prefix], Path], ...]
OrderCounts = Dict[str, int]


@dataclass(frozen=True)
class Found:
    """What is found of a prefix: the paths of each router that can come, best first, None where these are too many to
    be listed; the stable assignments, one more than `most` at most, and whether these are all; the rims of a dispute
    wheel; and why a search gave up, if one did."""

    prefix: Prefix
    origin: int
    most: int
    paths: Mapping[int, Sequence[Path]] | None = None
    assignments: Sequence[dict[int, Path]] = ()
    are_all: bool = False
    wheel: Sequence[Rim] = ()
    why: str | None = None

    @property
    def about(self) -> str:
        """How many stable assignments there are, in words."""
        return str(len(self.assignments)) if self.are_all else f"more than {self.most}"

    @property
    def verdict(self) -> tuple[str, int]:
        """What follows, in words, and the status of it."""
        found = len(self.assignments)
        if self.why:
            return f"{self.why}; nothing is said of the ends", 3
        if not self.wheel:
            return "every fair order settles, and in the same routes", 0
        if found > 1:
            many = found if self.are_all else "many"
            return f"orders may differ: {many} ends are possible, and an order may never settle", 5
        if found:
            return "one end is possible; nothing here says that every order comes to it", 4
        return "no order settles", 6


def found_of(program: Program, network: Network, prefix: Prefix, most: int) -> Found:
    """What is found of a prefix. The program is asked for a dispute wheel and for the stable assignments; a wheel that
    it finds is looked for here too, since a smaller one may be there."""
    origin = network.origins[prefix]
    if is_without_rules(network, prefix):
        # No wheel can be where each router likes the shorter path better: round it, each path would be longer than the
        # next. So there is one stable assignment.
        chosen = shortest_paths(network, prefix)
        return Found(prefix, origin, most, listed_paths(network, prefix), [chosen], True)
    free = {router for router in network.routers if network.rule(router, prefix) is None}
    try:
        paths = live_paths(network, prefix)
    except GaveUp as why:
        return Found(prefix, origin, most, why=str(why))
    wheel: list[Rim] = []
    try:
        if not is_safe(program, paths, origin, free):
            wheel = Spokes(paths).wheel()
        assignments, are_all = stable_assignments(program, paths, origin, most, free)
    except GaveUp as why:
        return Found(prefix, origin, most, paths, wheel=wheel, why=str(why))
    return Found(prefix, origin, most, paths, assignments, are_all, wheel)


def judged_assignments(program: Program, network: Network, found: Found,
                       without: Sequence[Link]) -> Iterator[tuple[dict[int, Path], Said]]:
    """The assignments that are printed of a prefix, each with what `check` says of it."""
    about = "check" + " without " * bool(without) + ", ".join(map(network.link_text, without))
    links = frozenset(frozenset(link) for link in without)
    for chosen in found.assignments[:found.most]:
        routes = {(router, found.prefix): path for router, path in chosen.items()}
        yield chosen, judgements(program, network, routes, links, about, [found.prefix])[found.prefix]


class Order:
    """An order of events, by its word or seed: the sessions come up, every prefix is originated, then the race, then
    rounds, one like the other. Behind it comes a snapshot."""

    def __init__(self, network: Network, word: Word) -> None:
        self.network, self.word, race = network, word, race_of(network)
        self.counts: OrderCounts | None = None
        self.round, self.most = ["rounds 1"], rest_bound(network)
        self.head = ["schedule", *starts(network), f"rounds {self.most}"]
        self.behind = len(network.lines) + len(self.head)  # the number of the last line
        self.head += originations(network)
        if word == "lock-step":
            self.round = lock_step(network)
            self.most = min(race, MOST_LINES // len(self.round) + 1)
        elif isinstance(word, int):
            self.head += at_random(network, word, race)

    def rounds(self, number: int) -> list[str]:
        return [f"rounds {number}"] if self.round == ["rounds 1"] else self.round * number

    def text(self, lines: Sequence[str]) -> str:
        return self.network.text + lines_text(lines)

    def whole(self) -> str:
        """The text with its snapshot, which the markers of that go round behind it."""
        snapshot = f"snapshot {self.network.routers[0]} 1"
        later = self.rounds(LATER + 2 * len(self.network.routers))
        return self.text(self.head + self.rounds(self.most) + [snapshot] + later)

    def outcome(self, program: Program) -> Rest | Again | None:
        """What it comes to: Rest, Again, or nothing that is seen."""
        found: Rest | Again | None = None
        for number in dict.fromkeys((min(self.most, FIRST_LOOK), self.most)):
            found = found or self.outcome_in(program, number)
        return found

    def outcome_in(self, program: Program, number: int) -> Rest | Again | None:
        """What it comes to in so many rounds. `counts` has the events, the UPDATEs and the rounds of one that rests,
        behind the coming up of the sessions."""
        if self.word != "lock-step":
            lines = program.trace(self.text(self.head + self.rounds(number)), "an order")
            rest = list(stages_of(lines).values())[-1].rest
            if rest is not None:
                self.counts = counts_behind(lines, self.behind, rest)
                return Rest(rest)
        number = min(number, MOST_LOOKED_AT)
        lines = program.trace(self.text(self.head + self.round * number), "an order")
        first = len(self.network.lines) + len(self.head)
        ends = {first + at * len(self.round) for at in range(1, number + 1)}
        outcome = outcome_of(lines, self.behind, ends, self.network)
        if isinstance(outcome, Rest):
            self.counts = counts_behind(lines, self.behind, outcome.round)
        return outcome


def counts_behind(lines: Sequence[str], behind: int, rounds: int) -> OrderCounts:
    """How many events were done and UPDATEs told behind a line of the input, and in how many rounds."""
    rows = list(rows_of(lines))
    begun = next((at for at, row in enumerate(rows) if row.kind is Kind.ENDED and row.line == behind), 0)
    return {**asdict(counts_of(rows[begun:])), "rounds": rounds}


def end_of(program: Program, order: Order, is_whole: bool) -> tuple[str, Routes, Again | None]:
    """How an order ends: a word, the routes in which it settles, and what shows that it never does. Where every session
    is up its snapshot has to say so too."""
    outcome = order.outcome(program)
    if isinstance(outcome, Again):
        return NEVER, (), outcome
    if outcome is None:
        return f"{UNSEEN} in {order.most} rounds", (), None
    lines = program.answer(["play"], order.whole(), "an order")
    if is_whole and lines[0].split() != ["snapshot", "1", "settled"]:
        raise Refusal(f"order {order.word}: `trace` says rest, and `play` does not say settled: {lines[0]}")
    return "settled", tuple(read_play(lines).routes.items()), None


class Ended(NamedTuple):
    """An order that ended somewhere: its word, what shows that it never rests, where that is so, and its counts."""

    word: Word
    again: Again | None
    counts: OrderCounts | None


# The orders by how they end: a word, and the routes in which they settle.
OrderEnds = Dict[Tuple[str, Routes], List[Ended]]


def play_orders(program: Program, network: Network, words: Sequence[Word], is_whole: bool = True,
                number: int = 1) -> OrderEnds:
    """The orders by how they end; so many are played at a time."""
    def play(word: Word) -> tuple[str, Routes, Ended]:
        order = Order(network, word)
        said, routes, again = end_of(program, order, is_whole)
        return said, routes, Ended(word, again, order.counts)

    return grouped(((said, routes), ended) for said, routes, ended in jobs.in_order(play, words, number, "orders"))


def are_found(routes: Routes, found: Mapping[Prefix, Sequence[dict[int, Path]]]) -> bool:
    """Whether routes in which an order settled are, of each prefix, among the assignments that were found."""
    return all({router: path for (router, own), path in routes if own == prefix} in assignments
               for prefix, assignments in found.items())


def row_text(network: Network, paths: Iterable[tuple[int, Path]]) -> str:
    """The paths of the routers, by router; a path begins with its router, and one who has none is named."""
    return " ".join(network.path_text(path) if path else f"{network.name_of(router)}: none" for router, path in paths)


class Timing:
    """The two shortest orders of hearings that come to different ends of a prefix, each confirmed by `play`; or
    nothing, where there are none, or not found."""

    def __init__(self, program: Program, network: Network, prefix: Prefix) -> None:
        self.network, self.prefix = network, prefix
        self.ends: list[tuple[End, HearingOrder, str]] = []
        orders = shortest_orders(network, prefix)
        for end, order in (orders or {}).items():
            text = network.text + lines_text(["schedule", *schedule_of(network, prefix, order)])
            routes = routes_behind(program, text, "an order")
            if all(routes[router, prefix] == path for router, path in end):
                self.ends.append((end, order, text))
        self.words = [sentence(network, *pair) for pair in self.pairs()] if len(self.ends) == 2 else []

    def pairs(self) -> list[tuple[Link, Link]]:
        """What parts the two orders, as each has it."""
        one, other = parting([order for _, order, _ in self.ends])
        return [(one, other), (other, one)] if one and other else []

    def lines(self) -> list[str]:
        if not self.words:
            return ["which timing: no two orders that end otherwise are found"]
        return [f"if {words}, in {len(order.telling)} hearings: {row_text(self.network, end)}"
                for words, (end, order, _) in zip(self.words, self.ends)]

    def object(self) -> list[Mapping[str, Any]]:
        return [{"if": words, "hearings": [list(way) for way in order.telling], "schedule": text,
                 "paths": {str(router): path_text(path) for router, path in end}}
                for words, (end, order, text) in zip(self.words, self.ends)]


def is_confirmed(found: Sequence[Found], judged: Sequence[Sequence[tuple[dict[int, Path], Said]]],
                 ends: OrderEnds) -> bool:
    """Whether the program says the same: each assignment is stable, orders settle in those that were found, and where
    there is no wheel none goes on for ever."""
    listed = {one.prefix: one.assignments for one in found if one.are_all}
    return (all(is_stable for row in judged for _, (_, is_stable) in row)
            and all(one.wheel or len(one.assignments) == 1 for one in found if one.are_all)
            and all(are_found(routes, listed) for _, routes in ends if routes)
            and not (max(one.verdict[1] for one in found) == 0 and any(said == NEVER for said, _ in ends)))
