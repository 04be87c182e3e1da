"""What `bgpnet trace` says of a run: its events, what routers keep and which sessions are up behind each order; where
its rounds come to rest, and how many UPDATEs routers told on the way."""
from __future__ import annotations

import re
from collections import Counter
from dataclasses import dataclass
from enum import Enum
from typing import Any, Collection, Dict, Iterable, Iterator, NamedTuple

from bgpnet.network import Ends, Link, Network, Prefix, RouteDict, numbered, parts_of, read_path, words_of

# The events that are commands.
COMMANDS = ("start", "stop", "reset", "originate", "withdraw", "restart", "snapshot")
# The events of one session.
OF_SESSIONS = ("start", "stop", "reset", "put", "take", "handle")

# A network that rests does so in far fewer rounds than these: so many, or so many times those in which a router tells
# each prefix to each peer, and so many times more as there are pieces in this many octets, but no more than the last.
LEAST_BOUND, WAVES, PIECE, MOST_ROUNDS = 1000, 80, 64, 50_000


def pieces_of(network: Network) -> int:
    """How many pieces a common message passes a link in."""
    return max(1, PIECE // network.cut)


def rounds_of_a_wave(network: Network) -> int:
    """In so many rounds a router tells each prefix to each peer."""
    return max(map(len, network.peers.values())) * max(1, len(network.origins))


def rest_bound(network: Network) -> int:
    """The rounds within which a network that comes to rest is expected to."""
    return min(MOST_ROUNDS, max(LEAST_BOUND, WAVES * rounds_of_a_wave(network)) * pieces_of(network))


# ---- lines and events

class Kind(Enum):
    """What a line of a trace is: an event; what is said of the event above it; the beginning of an order that is more
    than one event, and its end; the end of one of its rounds."""

    EVENT, SAID, BEGUN, ROUND, ENDED = range(5)


class Row(NamedTuple):
    """A line of a trace behind `schedule`. `text` is the event, or what is said of one. Of an order that begins or ends
    `line` is the number of its line in the input; of one that ends, `rest` is the number of the round behind which the
    network rested, None where it did not, and `is_of_rounds` whether it is one of rounds."""

    kind: Kind
    text: str
    line: int = 0
    rest: int | None = None
    is_of_rounds: bool = False


OF_A_LINE = re.compile(
    r"# line (\d+): (?:(?:rounds|ticks) (\d+)|\d+ events(?:, (rest behind|no rest by) round (\d+))?|nothing to do)")
OF_A_ROUND = "# round "


def read_row(line: str) -> Row:
    """The line of a trace behind `schedule`, or of a part of one."""
    if not line.startswith("#"):
        return Row(Kind.EVENT, line)
    if found := OF_A_LINE.fullmatch(line):
        number, times, rest, behind = found.groups()
        if times:
            return Row(Kind.BEGUN, line, int(number))
        return Row(Kind.ENDED, line, int(number), int(behind) if rest == "rest behind" else None, rest is not None)
    return Row(Kind.ROUND, line) if line.startswith(OF_A_ROUND) else Row(Kind.SAID, line[len("# "):])


def rows_of(trace: Iterable[str]) -> Iterator[Row]:
    """The lines of a trace behind `schedule`."""
    lines = iter(trace)
    for line in lines:
        if line == "schedule":
            break
    return map(read_row, lines)


@dataclass(frozen=True)
class Event:
    """An event of a run: its number, its words, the number of the line of the input that it is of, and what was said of
    it."""

    number: int
    words: tuple[str, ...]
    line: int
    said: tuple[str, ...] = ()

    @property
    def router(self) -> int:
        return int(self.words[1])

    def things(self, word: str) -> list[str]:
        """What was sent, taken, heard or kept, as the word says: `sends`, `takes`, .."""
        return [said[len(word) + 1:] for said in self.said if said.startswith(word + " ")]


def orders_of(text: str) -> list[int]:
    """The numbers of the lines of a text that are orders."""
    above, section, rest = parts_of(text)
    return [number for number, _ in numbered(rest, len(above) + 1)] if section else []


def events_of(trace: Iterable[str], orders: Iterable[int]) -> list[Event]:
    """The events of the trace of a text, of whose lines those numbered `orders` are orders."""
    found: list[tuple[tuple[str, ...], int, list[str]]] = []
    within, orders = None, iter(orders)
    for row in rows_of(trace):
        if row.kind is Kind.EVENT:
            found.append((tuple(words_of(row.text)), within or next(orders), []))
        elif row.kind is Kind.SAID and found:
            found[-1][2].append(row.text)
        elif row.kind is Kind.BEGUN:
            next(orders)
            within = row.line
        elif row.kind is Kind.ENDED:
            if within is None:
                next(orders)  # an order of one event, which did nothing
            within = None
    return [Event(number, words, line, tuple(said)) for number, (words, line, said) in enumerate(found, 1)]


class Moment:
    """What stands behind some events of a run: the path that each router keeps, by router and prefix; the ends of
    sessions that are up, as router and peer; the snapshots that are decided; for how many seconds nothing was taken
    from a peer, by router and peer; and the UPDATEs that were told and not heard, by teller, hearer and prefix."""

    def __init__(self, network: Network) -> None:
        self.network = network
        self.up: set[Link] = set()
        self.decided: list[int] = []
        self.parts: Counter[int] = Counter()
        self.silence: Counter[Link] = Counter()
        self.told: Counter[tuple[int, int, Prefix]] = Counter()
        self.kept: RouteDict = {(router, prefix): () for router in network.routers for prefix in network.origins}

    def pass_event(self, event: Event) -> None:
        if event.words[0] == "tick":
            for peer in self.network.peers[event.router]:
                self.silence[event.router, peer] += 1
        elif event.words[0] == "take":
            self.silence[event.router, int(event.words[2])] = 0
        elif event.words[0] == "restart":
            self.kept.update({(event.router, prefix): () for prefix in self.network.origins})
        for said in event.said:
            word, *words = said.split(" ")
            if word == "keeps":
                self.kept[event.router, Prefix.read(words[0])] = read_path(words[1].rstrip(","))
            elif word == "session":
                self.change(event.router, int(words[0]), words[1])
            elif word == "offers":
                self.offer(int(words[1]), words[2:] == ["lost"])
            elif word == "tells":
                self.told[event.router, int(words[0]), Prefix.read(words[1])] += 1
            elif word == "hears":
                update = update_of(words)
                key = update and (int(event.words[2]), event.router, Prefix.read(update[0]))
                if key and self.told[key]:
                    self.told[key] -= 1

    def change(self, router: int, peer: int, state: str) -> None:
        """A session comes to another state: what was told in it and not heard is lost."""
        (self.up.add if state == "Established" else self.up.discard)((router, peer))
        for key in [key for key in self.told if {router, peer} == {*key[:2]}]:
            del self.told[key]

    @property
    def waiting(self) -> Counter[Prefix]:
        """How many UPDATEs of each prefix were told and not heard."""
        waiting: Counter[Prefix] = Counter()
        for (_, _, prefix), number in self.told.items():
            waiting[prefix] += number
        return waiting

    def offer(self, snapshot: int, is_lost: bool) -> None:
        """A snapshot is decided at the first loss that is offered, or at the last router's part."""
        self.parts[snapshot] += 1
        if snapshot not in self.decided and (is_lost or self.parts[snapshot] == len(self.network.routers)):
            self.decided.append(snapshot)

    @property
    def broken(self) -> set[Ends]:
        """The links, as sets of two routers, whose session is not up at both ends."""
        return {frozenset(link) for link in self.network.links
                if not {link, link[::-1]} <= self.up}

    @property
    def silent(self) -> dict[Ends, int]:
        """The links whose session is up, and from which an end took nothing for some seconds: for how many."""
        seconds = {frozenset((one, other)): max(self.silence[one, other], self.silence[other, one])
                   for one, other in self.network.links}
        return {link: number for link, number in seconds.items() if number and link not in self.broken}


# ---- rest

@dataclass(frozen=True)
class Stage:
    """What rounds came to: the number of those behind which the network rested, or None; and how many UPDATEs were told
    since the rounds before, by prefix."""

    rest: int | None
    told: Counter[Prefix]


def stages_of(trace: Iterable[str]) -> dict[int, Stage]:
    """The stages of a run, one behind each line of rounds, by the line's number."""
    stages: dict[int, Stage] = {}
    told: Counter[Prefix] = Counter()
    for row in rows_of(trace):
        if row.kind is Kind.SAID and row.text.startswith("tells "):
            told[Prefix.read(row.text.split()[2])] += 1
        elif row.is_of_rounds:
            stages[row.line] = Stage(row.rest, told)
            told = Counter()
    return stages


@dataclass(frozen=True)
class Counts:
    """How many events a run had, and how many UPDATEs were told in it."""

    events: int
    updates: int


def counts_of(rows: Iterable[Row]) -> Counts:
    events = updates = 0
    for row in rows:
        events += row.kind is Kind.EVENT
        updates += row.kind is Kind.SAID and row.text.startswith("tells ")
    return Counts(events, updates)


# ---- what comes again

class Replay:
    """What routers know, and what is on its way, as the comments of a run say it, from a moment at which nothing was on
    its way; and in how many places it is another than at a moment that was marked.

    By keys it has the path that a router keeps, that a router last told a peer, and that it last heard from one; for
    each way of a link the UPDATEs that were told and not heard, the pieces in the pipe, and how many octets were taken
    and not handled. A key that is not there is as it was at the first moment. `is_touched` says that another thing than
    an UPDATE passed since it was last set to false, or that a session changed: a moment that was marked before is none
    to be compared with. What passes the links `closed` is not looked at, but that something did. Where what is heard is
    not what was told, `is_known` is no longer true."""

    def __init__(self, width: int, closed: Collection[Ends] = frozenset()) -> None:
        self.width, self.closed, self.is_known, self.is_touched = width, closed, True, False
        self.now: Dict[tuple[str, ...], Any] = {}
        self.then: Dict[tuple[str, ...], Any] = {}
        self.different: set[tuple[str, ...]] = set()
        self.event: list[str] = []
        self.is_outside = False

    def set(self, *key: str, to: Any) -> None:
        """Sets a key; `to` is false where nothing is there."""
        self.now[key] = to = to or None
        if self.then.get(key) == to:
            self.different.discard(key)
        else:
            self.different.add(key)

    def mark(self) -> None:
        """Marks this moment."""
        self.then, self.different = dict(self.now), set()

    def read(self, row: Row) -> None:
        """Reads a line of the run, of which an event counts, and what is said of it."""
        if row.kind is Kind.EVENT:
            self.event = row.text.split()
            self.is_outside = self.event[0] in OF_SESSIONS and frozenset(map(int, self.event[1:])) in self.closed
            self.is_touched |= self.is_outside
            if self.event[0] == "put" and not self.is_outside:
                self.add("pipe", *self.ends(1, 2), more=((),))
            return
        if row.kind is not Kind.SAID or self.is_outside:
            return
        words = row.text.split()
        reader = {"tells": self.tells, "sends": self.sends, "takes": self.takes, "hears": self.hears,
                  "keeps": self.keeps, "session": self.session}.get(words[0])
        if reader:
            reader(words[1:])
        else:
            self.is_known = False

    def ends(self, one: int, other: int) -> tuple[str, str]:
        return self.event[one], self.event[other]

    def add(self, *key: str, more: tuple[Any, ...]) -> None:
        self.set(*key, to=(self.now.get(key) or ()) + more)

    def tells(self, words: list[str]) -> None:
        peer, prefix, path = words
        self.set("told", self.event[1], peer, prefix, to=path)
        self.add("waiting", self.event[1], peer, more=((prefix, path),))

    def sends(self, words: list[str]) -> None:
        way = "pipe", *self.ends(1, 2)
        pieces = self.now[way]
        self.set(*way, to=pieces[:-1] + (pieces[-1] + (" ".join(words),),))
        self.is_touched |= words[0] != "update" and not are_octets(words)

    def takes(self, words: list[str]) -> None:
        way = self.ends(2, 1)
        pieces = self.now.get(("pipe", *way))
        if not pieces:
            self.is_known = False
            return
        self.set("pipe", *way, to=pieces[1:])
        if are_octets(words):
            self.set("taken", *way, to=(self.now.get(("taken", *way)) or 0) + int(words[0]))
        else:
            self.is_touched = True

    def session(self, words: list[str]) -> None:
        """A session changes: what was said in it is nothing from here on."""
        self.is_touched = True
        own, peer = self.event[1], words[0]
        if frozenset((int(own), int(peer))) not in self.closed:
            for key in [key for key in self.now if key[:3] in (("told", own, peer), ("heard", peer, own))]:
                self.set(*key, to=None)

    def hears(self, words: list[str]) -> None:
        way = self.ends(2, 1)
        waiting, taken = self.now.get(("waiting", *way)), self.now.get(("taken", *way)) or 0
        said, other = update_of(words), octets_of_other(words, self.width)
        if other and taken >= other:
            self.is_touched = True
            self.set("taken", *way, to=taken - other)
            return
        if not waiting or said != waiting[0] or taken < octets_of(said, self.width):
            self.is_known = False
            return
        self.set("waiting", *way, to=waiting[1:])
        self.set("taken", *way, to=taken - octets_of(said, self.width))
        self.set("heard", *way, said[0], to=said[1])

    def keeps(self, words: list[str]) -> None:
        self.set("kept", self.event[1], words[0], to=words[1].rstrip(","))


def are_octets(words: list[str]) -> bool:
    """Whether a piece, or what is left of one, is octets."""
    return words[1:] in (["octets"], ["octet"])


def octets_of_other(words: list[str], width: int) -> int:
    """The octets of an OPEN or a KEEPALIVE of this program (RFC 4271 sections 4.2 and 4.4); 0 of what is neither."""
    return {"open": 29 if width == 2 else 37, "keepalive": 19}.get(words[0], 0)


def update_of(words: list[str]) -> tuple[str, str] | None:
    """The prefix of an UPDATE, as `decode` prints one of this program, and its path, `none` where it is withdrawn."""
    if words[:2] == ["update", "withdraw"] and len(words) == 3:
        return words[2], "none"
    if words[:2] == ["update", "announce"] and len(words) == 7:
        return words[2], words[4]
    return None


def octets_of(said: tuple[str, str], width: int) -> int:
    """The octets of an UPDATE with one prefix (RFC 4271 section 4.3): of the header and the two lengths, of the prefix,
    and, where it is announced, of ORIGIN, AS_PATH and NEXT_HOP."""
    prefix, path = said
    octets = 19 + 4 + 1 + (int(prefix.split("/")[1]) + 7) // 8
    return octets if path == "none" else octets + 4 + 5 + width * len(path.split("-")) + 7


@dataclass(frozen=True)
class Rest:
    """That behind round `round` of an order came one in which nothing was done."""

    round: int


@dataclass(frozen=True)
class Again:
    """That the state behind round `first` of an order came again behind round `second`, with `events` between."""

    first: int
    second: int
    events: int

    def __str__(self) -> str:
        return f"the state behind round {self.first} comes again behind round {self.second}, {self.events} events later"


def outcome_of(trace: Iterable[str], behind: int, ends: Collection[int], network: Network,
               closed: Collection[Ends] = frozenset()) -> Rest | Again | None:
    """What a run comes to: Rest, or Again, or nothing that is seen here.

    The orders of each round are the same, and `ends` are the numbers of the lines that end them. The run is read from
    the end of the line numbered `behind` on, or from its beginning where that is a line `rounds 1`, and nothing is on
    its way there. A state that comes again does so for ever, since the program does the same in it."""
    replay, is_read, number_of_round, events = Replay(network.width, closed), False, 0, 0
    last, marked = None, None
    for row in rows_of(trace):
        if not is_read:
            is_read = row.line == behind and (row.kind is Kind.ENDED or row.text.endswith(": rounds 1"))
            continue
        replay.read(row)
        events += row.kind is Kind.EVENT
        if row.kind is not Kind.ENDED or row.line not in ends:
            continue
        if events == last:
            return Rest(number_of_round)
        number_of_round, last = number_of_round + 1, events
        if replay.is_touched:
            replay.is_touched, marked = False, None
        if not replay.is_known:
            return None
        if marked and not replay.different:
            return Again(marked[0], number_of_round, events - marked[1])
        if number_of_round & number_of_round - 1 == 0:
            replay.mark()
            marked = number_of_round, events
    return None
