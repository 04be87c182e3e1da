"""The emulator for programs: networks and schedules, and what the program says of them, as values.

The package has these names itself: `import bgpnet; bgpnet.read_network("net.txt").stable()`. Each answer is one of the
program's, but those of `settle` and `whatif`, which the program confirms. A refusal is the exception `Refusal`; one of
the program, of a text, is `Refused`, with the line, the code and the sentence. A file or program that can't be read
or started is an `OSError`."""
from __future__ import annotations

import importlib
import pathlib
from dataclasses import dataclass, field
from typing import Any, Iterable, Mapping, Sequence, Tuple, Union

from bgpnet import charts, decoding, films, network as texts, playing, settling
from bgpnet.answers import (Cut, Dispute, Flight, Heard, Judgement, Known, Played, Rim, Routes, SafePrefix, Session,
                            Settled, Snapshot, StablePrefix, Why, read_check, read_cut, read_play, read_run, read_safe,
                            read_stable, read_why)
from bgpnet.decoding import (Attribute, Capability, Decoded, Fault, Keepalive, Notification, Open, RouteRefresh, Update)
from bgpnet.failures import Failure, Player, Seen, StateBehind, seen_in
from bgpnet.live import Preference
from bgpnet.network import Link, Path, Prefix, parts_of, path_text, read_link, read_router
from bgpnet.program import Program, Refusal, Refused, found_program, read_octets, read_text
from bgpnet.tracing import Again, Event, counts_of, events_of, orders_of, rest_bound, rows_of

__all__ = [
    "Aftermath", "Again", "Assignment", "Attribute", "Capability", "Consequence", "Cut", "Decoded", "Dispute", "Ends",
    "Event", "Fault", "Flight", "Heard", "Judgement", "Keepalive", "Known", "Network", "Notification", "Open",
    "OrderEnd", "Path", "Picture", "Played", "Prefix", "PrefixEnds", "Program", "Refusal", "Refused", "Rim",
    "RouteRefresh", "Routes", "SafePrefix", "Schedule", "Seen", "Session", "Settled", "Snapshot", "StablePrefix",
    "State", "Trace", "Update", "Why", "build_network", "decode", "read_assignment", "read_configurations",
    "read_network", "read_schedule"]

# A path as a program gives one: its routers, or a text such as "2-3-1" or "none"; a link so, or as "1-2", by numbers or
# names.
GivenPath = Union[Sequence[int], str]
GivenLink = Union[Link, str]
GivenPrefix = Union[Prefix, str]
# The rounds behind the snapshot of a schedule that is made here.
LATER = 100


def default_program() -> Program:
    """The program that BGPNET names, else that on PATH, else where it was built."""
    return Program(found_program())


def prefix_of(given: GivenPrefix) -> Prefix:
    return given if isinstance(given, Prefix) else Prefix.named(given)


def path_of(given: GivenPath) -> str:
    return given if isinstance(given, str) else path_text(given)


def as_octets(text: str) -> str:
    """A text as the other modules have it: a character for each octet of its UTF-8."""
    return text.encode("utf-8", "surrogateescape").decode("latin-1")


def read_file(path: str) -> str:
    """The text of a file in UTF-8, `-` for the standard input, what gzip or bzip2 packed unpacked. An octet that is no
    UTF-8 comes out as it went in."""
    return read_octets(path).decode("utf-8", "surrogateescape")


@dataclass(frozen=True)
class Picture:
    """A picture, as the text of an SVG file. A notebook shows it."""

    svg: str = field(repr=False)

    def _repr_svg_(self) -> str:
        return self.svg

    def save(self, path: str | pathlib.Path) -> None:
        """Writes the file."""
        pathlib.Path(path).write_text(self.svg, encoding="utf-8")


# ---- networks

@dataclass(frozen=True)
class Network:
    """A network that the program takes. `text` has its lines, comments too, and no section behind them; refusals call
    it by `name`. A notebook shows a picture of it."""

    text: str = field(repr=False)
    name: str = "network"
    program: Program = field(default_factory=default_program, repr=False, compare=False)
    facts: texts.Network = field(init=False, repr=False, compare=False)

    def __post_init__(self) -> None:
        if not self.text.endswith("\n") and self.text:
            object.__setattr__(self, "text", self.text + "\n")
        facts, section, _ = texts.read_network(self.program, as_octets(self.text), self.name)
        if section:
            raise Refusal(f"{self.name}: behind the network stands a line `{section}`: read_{section} takes both")
        object.__setattr__(self, "facts", facts)

    @property
    def routers(self) -> tuple[int, ...]:
        return tuple(self.facts.routers)

    @property
    def links(self) -> tuple[Link, ...]:
        return tuple(self.facts.links)

    @property
    def origins(self) -> dict[Prefix, int]:
        """The origin of each prefix, by address, then length."""
        return dict(self.facts.origins)

    @property
    def names(self) -> dict[int, str]:
        """What comments call routers."""
        return dict(self.facts.names)

    def peers(self, router: int) -> tuple[int, ...]:
        return tuple(self.facts.peers[router])

    def permitted(self, router: int, prefix: GivenPrefix) -> list[Path] | None:
        """The paths that a router's rule permits for a prefix, best first; None where no rule applies, so that every
        simple path is permitted, the shorter first."""
        ranked = self.facts.ranked(router, prefix_of(prefix))
        return None if ranked is None else list(ranked)

    def link(self, given: GivenLink) -> Link:
        """A link as the network has it."""
        return read_link(self.facts, given if isinstance(given, str) else f"{given[0]}-{given[1]}")

    # -- what the program says of it

    def _answer(self, words: Sequence[str], text: str) -> list[str]:
        return self.program.answer(words, as_octets(text), self.name)

    def stable(self, most: int | None = None, steps: int | None = None) -> tuple[StablePrefix, ...]:
        """All stable assignments, prefix by prefix. `most` and `steps` are the limits of the search, as the words
        `--most` and `--steps` of `bgpnet stable`; a prefix of which one is met is `unknown`."""
        def ranked(one: StablePrefix) -> StablePrefix:
            return one.ranked(lambda router, path: Preference(self.facts, router, one.prefix).key(path))

        found = read_stable(self._answer(["stable", *option("most", most), *option("steps", steps)], self.text))
        return tuple(map(ranked, found))

    def safe(self, paths: int | None = None) -> tuple[SafePrefix, ...]:
        """Whether each prefix is without a dispute wheel. `paths` is the limit `--paths` of `bgpnet safe`."""
        return read_safe(self._answer(["safe", *option("paths", paths)], self.text))

    def check(self, routes: Mapping[tuple[int, Any], GivenPath]) -> Judgement:
        """Whether an assignment is stable: a path by router and prefix, none where none is given."""
        return Assignment(self, {(router, prefix_of(prefix)): texts.read_path(path_of(path))
                                 for (router, prefix), path in routes.items()}).check()

    def run(self, turns: int | None = None, snapshots: int | None = None) -> Settled:
        """Runs the network with a thread for each router; two runs may end otherwise. `turns` and `snapshots` are the
        words of `bgpnet run`."""
        return read_run(self._answer(["run", *option("turns", turns), *option("snapshots", snapshots)], self.text))

    def record(self, turns: int | None = None, snapshots: int | None = None) -> Schedule:
        """Runs the network so, and answers what its threads did, as a schedule."""
        lines = self._answer(["record", *option("turns", turns), *option("snapshots", snapshots)], self.text)
        return self.schedule(lines[lines.index("schedule") + 1:])

    # -- what is done with it

    def schedule(self, orders: str | Iterable[str] | None = None) -> Schedule:
        """A schedule of these orders, lines of `bgpnet play`. Without orders each session comes up, each prefix is
        originated, rounds follow in which a network that rests comes to rest, and a snapshot by the least router."""
        if orders is None:
            orders = texts.usual_orders(self.facts, rest_bound(self.facts), LATER)
        return Schedule(self, tuple(orders.splitlines() if isinstance(orders, str) else orders))

    def settle(self, most: int = 100, play: int | None = None, jobs: int = 1) -> Ends:
        """In which routes the network can rest, whether there is a dispute wheel, and what follows, as tools/settle
        says it: `most` assignments of a prefix. With `play` two orders and so many random ones are played, so many at a
        time. Refuses where the program does not confirm what is found."""
        if not self.facts.origins:
            raise Refusal(f"{self.name}: no origin, so no routes")
        found = [settling.found_of(self.program, self.facts, prefix, most) for prefix in self.facts.origins]
        judged = [list(settling.judged_assignments(self.program, self.facts, one, ())) for one in found]
        words: list[settling.Word] = [] if play is None else ["rising", "lock-step", *range(1, play + 1)]
        ends = settling.play_orders(self.program, self.facts, words, True, jobs)
        if not settling.is_confirmed(found, judged, ends):
            raise Refusal("the program does not confirm what is found here")
        return Ends(tuple(map(prefix_ends, found)), tuple(
            OrderEnd(said, tuple(one.word for one in ended), Routes(dict(routes)),
                     next((one.again for one in ended if one.again), None))
            for (said, routes), ended in ends.items()))

    def whatif(self, fail: GivenLink | Iterable[GivenLink] = (), crash: int | str | None = None,
               silent: GivenLink | None = None, then: Iterable[GivenLink] = (), back: bool = False,
               orders: int = 8, begin: Schedule | None = None) -> Aftermath:
        """What happens when links fail together, a router crashes, or nothing crosses a link any more, as tools/whatif
        says it; one of the three is given. With `then` more links fail on top of it, with `back` all is there again.
        Where the network does not rest, so many random `orders` are tried. The state before is that behind the schedule
        `begin`, at whose end every session has to be up; without it that in which the network comes up."""
        failure = self._failure(fail, crash, silent)
        player = self._player(begin, orders)
        player.then = [self.link(one) for one in then]
        return self._aftermath(player, player.states([])[0], failure, back)

    def fail_each_link(self, back: bool = False, orders: int = 8,
                       begin: Schedule | None = None) -> dict[Link, Aftermath]:
        """What happens when each link fails by itself."""
        player = self._player(begin, orders)
        before = player.states([])[0]
        return {link: self._aftermath(player, before, Failure(self.facts, [link]), back) for link in self.facts.links}

    def _player(self, begin: Schedule | None, orders: int) -> Player:
        if not self.facts.origins:
            raise Refusal(f"{self.name}: no origin, so no routes")
        if begin:
            playing.check_all_up(self.program, self.facts, as_octets(self.schedule(begin.orders).text), self.name)
        return Player(self.program, self.facts, list(begin.orders) if begin else None, orders)

    def _failure(self, fail: GivenLink | Iterable[GivenLink], crash: int | str | None,
                 silent: GivenLink | None) -> Failure:
        links = [self.link(one) for one in given_links(fail)]
        if bool(links) + (crash is not None) + (silent is not None) != 1:
            raise Refusal("one of `fail`, `crash` and `silent` is given")
        if silent is not None:
            return Failure(self.facts, [self.link(silent)], silent=True)
        if crash is None:
            return Failure(self.facts, list(dict.fromkeys(links)))
        router = read_router(self.facts, str(crash))
        if router is None:
            raise Refusal(f"there is no router {crash}")
        return Failure(self.facts, crash=router)

    def _aftermath(self, player: Player, before: StateBehind, failure: Failure, back: bool) -> Aftermath:
        player.before = last = before
        found = [self._consequence("before", before, before, before)]
        stages = player.failing_stages(failure, back) if before.stage.rest is not None else []
        for (stage, _), state in zip(stages, player.states(stages) if stages else ()):
            found.append(self._consequence(stage[0], state, last, before))
            last = state
        return Aftermath(failure.name(), tuple(found))

    def _consequence(self, title: str, state: StateBehind, last: StateBehind, first: StateBehind) -> Consequence:
        seen = seen_in(self.program, self.facts, state, last, first)
        return Consequence(title, state.stage.rest, sum(state.stage.told.values()), Routes(dict(state.routes)), seen,
                           state.again)

    def draw(self, routes: Mapping[tuple[int, Prefix], Path] | None = None, prefix: GivenPrefix | None = None,
             title: str = "", rules: bool = True) -> Picture:
        """A picture of the network, with the routes of a prefix (the first, if none is given), and what `check` says of
        them."""
        return self._drawn(routes or {}, None, prefix, title, rules)

    def _drawn(self, routes: Mapping[tuple[int, Prefix], Path], state: playing.State | None,
               prefix: GivenPrefix | None, title: str, rules: bool) -> Picture:
        chosen = playing.chosen_prefix(self.facts, None if prefix is None else str(prefix))
        drawn = films.drawn_routes(self.program, self.facts, chosen, routes, state, title, rules)
        return Picture(films.svg_of(self.facts, chosen, [drawn]))

    def _repr_svg_(self) -> str:
        return self.draw().svg


def option(word: str, value: int | None) -> list[str]:
    return [] if value is None else [f"--{word}", str(value)]


def given_links(given: GivenLink | Iterable[GivenLink]) -> list[GivenLink]:
    """Links that are given, or one."""
    if isinstance(given, str):
        return [given]
    links: list[Any] = list(given)
    return [(links[0], links[1])] if len(links) == 2 and all(isinstance(end, int) for end in links) else links


# ---- schedules and assignments

@dataclass(frozen=True)
class Schedule:
    """A network and the lines of a schedule for it, comments too. A notebook shows what stands at its end."""

    network: Network
    orders: Tuple[str, ...] = field(repr=False)

    @property
    def text(self) -> str:
        """The whole text, as the program takes it."""
        return self.network.text + texts.lines_text(("schedule", *self.orders))

    def _answer(self, *words: str) -> list[str]:
        return self.network._answer(words, self.text)

    def play(self) -> Played:
        """How its snapshots came out, and the routes at its end."""
        return read_play(self._answer("play"))

    def cut(self, snapshot: int) -> Cut:
        """What a snapshot saw."""
        return read_cut(self._answer("cut", str(snapshot)))

    def why(self, router: int) -> Why:
        """What a router knows at its end, and makes of it."""
        return read_why(self._answer("why", str(router)))

    def trace(self) -> Trace:
        """The run, event by event."""
        lines = self._answer("trace")
        rows = list(rows_of(lines))
        ended = [row.rest for row in rows if row.is_of_rounds]
        events = tuple(events_of(lines, orders_of(self.text)))
        return Trace(events, counts_of(rows).updates, ended[-1] if ended else None)

    def state(self) -> State:
        """What stands at its end."""
        return State(self.network, playing.state_behind(self.network.program, as_octets(self.text), self.network.name))

    def film(self, prefix: GivenPrefix | None = None, each: bool = False, first: int = 1, last: int = films.MOST_STEPS,
             rules: bool = True, columns: int = 3) -> Picture:
        """A picture behind each step, as tools/film draws them."""
        shown = films.Shown(None if prefix is None else str(prefix), each, first, last, rules, columns)
        return Picture(films.film_of(self.network.program, self.network.facts, as_octets(self.text), self.network.name,
                                     shown))

    def chart(self, updates: bool = False, prefix: GivenPrefix | None = None, first: int = 1,
              last: int = charts.MOST_EVENTS, columns: int = 1) -> Picture:
        """The messages, as tools/chart draws them: events by their numbers, UPDATEs alone, or those of a prefix."""
        shown = charts.Shown(first, last, updates=updates, prefix=None if prefix is None else prefix_of(prefix),
                             columns=columns)
        return Picture(charts.drawn_chart(self.network.program, self.network.facts, as_octets(self.text),
                                          self.network.name, shown))

    def _repr_svg_(self) -> str:
        return self.state().draw().svg


@dataclass(frozen=True)
class Trace:
    """A run: its events, each with what was said of it; how many UPDATEs were told; and behind which round its last
    line of rounds rested, None where it did not, or there is none."""

    events: Tuple[Event, ...]
    updates: int
    rest: int | None


@dataclass(frozen=True)
class State:
    """What stands at the end of a schedule. A notebook shows a picture of it."""

    network: Network
    behind: playing.State = field(repr=False)

    @property
    def routes(self) -> Routes:
        return Routes(self.behind.routes)

    @property
    def down(self) -> tuple[Link, ...]:
        """The links whose session is not up at both ends."""
        return tuple(link for link in self.network.links if frozenset(link) in self.behind.broken)

    @property
    def silent(self) -> dict[Link, int]:
        """For how many seconds an end of a link took nothing; links whose session is up, and of which that is so."""
        return {link: self.behind.silent[frozenset(link)] for link in self.network.links
                if frozenset(link) in self.behind.silent}

    @property
    def waiting(self) -> dict[Prefix, int]:
        """How many UPDATEs of each prefix were told and not heard."""
        return {prefix: self.behind.waiting[prefix] for prefix in self.network.origins}

    def draw(self, prefix: GivenPrefix | None = None, title: str = "", rules: bool = True) -> Picture:
        """A picture of it, as tools/draw draws it: the routes of a prefix, what is down, and what `check` says."""
        return self.network._drawn(self.behind.routes, self.behind, prefix, title, rules)

    def _repr_svg_(self) -> str:
        return self.draw().svg


@dataclass(frozen=True)
class Assignment:
    """A network and a path for each router and prefix, none where none is given. A notebook shows a picture of it."""

    network: Network
    routes: Mapping[Tuple[int, Prefix], Path]

    @property
    def text(self) -> str:
        """The whole text, as the program takes it."""
        return self.network.text + "assignment\n" + "".join(
            f"path {router} {prefix} {path_text(path)}\n" for (router, prefix), path in self.routes.items())

    def check(self) -> Judgement:
        """Whether it is stable."""
        return read_check(self.network._answer(["check"], self.text))

    def _repr_svg_(self) -> str:
        return self.network.draw(self.routes).svg


# ---- what settle and whatif find

@dataclass(frozen=True)
class PrefixEnds:
    """In which routes a prefix can come to rest: the stable assignments, and whether these are all; the rims of a
    dispute wheel; what follows, in words, and as the status of tools/settle: 0 for one end in every order, 3 where a
    search gave up, 4 for one assignment and a wheel, 5 for several, 6 for none."""

    prefix: Prefix
    origin: int
    assignments: Tuple[Mapping[int, Path], ...]
    are_all: bool
    wheel: Tuple[Rim, ...]
    verdict: str
    status: int


@dataclass(frozen=True)
class OrderEnd:
    """An end of orders that were played: "settled", "never rests" or "no verdict ..", the words or seeds of the orders
    that end so, the routes in which they settle, and what shows that the first of them never rests."""

    end: str
    orders: Tuple[Union[str, int], ...]
    routes: Routes
    again: Again | None


@dataclass(frozen=True)
class Ends:
    """What `settle` finds: of each prefix, and of the orders that were played."""

    prefixes: Tuple[PrefixEnds, ...]
    orders: Tuple[OrderEnd, ...]


def prefix_ends(found: settling.Found) -> PrefixEnds:
    verdict, status = found.verdict
    return PrefixEnds(found.prefix, found.origin, tuple(found.assignments[:found.most]), found.are_all,
                      tuple(found.wheel), verdict, status)


@dataclass(frozen=True)
class Consequence:
    """A state before or behind a failure, or when all is back: its title; behind which round the network rests, None
    where it does not within a bound; how many UPDATEs were told; the routes; what became of each prefix; and which
    state comes again, if one is seen to."""

    title: str
    rest: int | None
    updates: int
    routes: Routes
    prefixes: Mapping[Prefix, Seen]
    again: Again | None


@dataclass(frozen=True)
class Aftermath:
    """What a failure does: the states before and behind it. Where the network does not rest before, that one alone."""

    failure: str
    states: Tuple[Consequence, ...]


# ---- texts and files

def split(text: str, name: str, program: Program | None) -> tuple[Network, str | None, list[str]]:
    """The network of a text, the word of its section and the section's lines. A network that is refused is refused by
    the line of the text."""
    above, section, rest = parts_of(text)
    network = "\n".join(above[:-1] + [""] if section else above)
    return Network(network, name, program or default_program()), section, rest


def read_network(path: str, program: Program | None = None) -> Network:
    """The network of a file, `-` for the standard input; a section behind it is left out. What gzip or bzip2 packed is
    unpacked."""
    return split(read_file(path), path, program)[0]


def read_schedule(path: str, program: Program | None = None) -> Schedule:
    """The network and the schedule of a file."""
    network, section, rest = split(read_file(path), path, program)
    if section != "schedule":
        raise Refusal(f"{path}: no schedule")
    return Schedule(network, tuple(rest[:-1] if rest[-1:] == [""] else rest))


def read_assignment(path: str, program: Program | None = None) -> Assignment:
    """The network and the assignment of a file, which the program takes."""
    text = read_file(path)
    network, section, rest = split(text, path, program)
    if section != "assignment":
        raise Refusal(f"{path}: no assignment")
    network.program.answer(["check"], as_octets(text), path)
    return Assignment(network, texts.routes_of(rest))


def build_network(links: Iterable[Link], origins: Mapping[GivenPrefix, int],
                  rules: Mapping[tuple[int, GivenPrefix], Iterable[GivenPath]] | None = None,
                  routers: Iterable[int] = (), hold: int | None = None, cut: int | None = None, name: str = "network",
                  program: Program | None = None) -> Network:
    """A network of these links and origins, and of rules by router and prefix, the best path first. A router is named
    by its AS number; it has the BGP Identifier 10.0.0.N, where N is its place among all, rising."""
    links, rules = list(links), dict(rules or {})
    ends = (end for link in links for end in link)
    known = sorted({*routers, *ends, *origins.values(), *(router for router, _ in rules)})
    lines = ["asn 4"] * any(router > texts.GREATEST_OF_TWO_OCTETS for router in known)
    lines += [f"{word} {value}" for word, value in (("hold", hold), ("cut", cut)) if value is not None]
    lines += [f"router {router} 10.0.0.{place}" for place, router in enumerate(known, 1)]
    lines += [f"link {one} {other}" for one, other in links]
    lines += [f"origin {router} {prefix}" for prefix, router in origins.items()]
    lines += [" ".join([f"rank {router} {prefix}", *map(path_of, paths)]) for (router, prefix), paths in rules.items()]
    return Network(texts.lines_text(lines), name, program or default_program())


def read_configurations(paths: Iterable[str], bird: Iterable[str] = (), best: int | None = None,
                        program: Program | None = None) -> Network:
    """The network of routers' configurations, in the languages of FRR and BIRD, as tools/config reads them; the files
    of `bird` are of BIRD, whatever they hold. With `best` a router that has more paths than a rule may have keeps so
    many. Comments of the network call routers by their names."""
    # Loaded here alone, since it takes some time; and by their names, since they have no types.
    files, ranks = (importlib.import_module(f"bgpnet.configs.{name}") for name in ("files", "ranks"))
    of_bird = list(bird)
    routers = files.read_set({path: read_text(path) for path in [*paths, *of_bird]}, of_bird)
    lines, _ = ranks.network_lines(ranks.Ranks(routers), best)
    return Network(texts.lines_text(lines), "the configurations", program or default_program())


def decode(octets: bytes, width: int = 2, peer: int | None = None, program: Program | None = None) -> Decoded:
    """The messages that octets spell, from an OPEN on or from any message, with all their fields, up to the first
    fault. AS numbers have `width` octets, 2 or 4, which the octets do not say. A well-formed ROUTE-REFRESH (RFC 2918)
    is a message too, although the program reads RFC 4271 alone. With `peer` an OPEN, and the first number of a path,
    are checked against that AS number."""
    return decoding.decode(program or default_program(), octets, width, peer)
