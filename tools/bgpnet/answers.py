"""What the words of the program print, read once: as values for programs, and as values that JSON has."""
from __future__ import annotations

import functools
import itertools
import re
from dataclasses import asdict, dataclass, field, replace
from typing import Any, Callable, Iterable, Iterator, Mapping, Sequence, Tuple

from bgpnet.network import Path, Prefix, RouteDict, path_text, read_path, routes_of
from bgpnet.program import Program
from bgpnet.tracing import Kind, counts_of, rows_of

Json = Mapping[str, Any]


class Routes(Mapping[Tuple[int, Prefix], Path]):
    """Each router's path for each prefix, `()` for none. In `routes[2, "10.1.0.0/16"]` the prefix may be a text."""

    def __init__(self, paths: RouteDict) -> None:
        self._paths = dict(paths)

    def __getitem__(self, key: tuple[int, Prefix | str]) -> Path:
        router, prefix = key
        return self._paths[router, Prefix.named(prefix) if isinstance(prefix, str) else prefix]

    def __iter__(self) -> Iterator[tuple[int, Prefix]]:
        return iter(self._paths)

    def __len__(self) -> int:
        return len(self._paths)

    def __hash__(self) -> int:
        return hash(frozenset(self._paths.items()))

    def __repr__(self) -> str:
        rows = [f"{router} {prefix} {path_text(path)}" for (router, prefix), path in self.items()]
        return f"Routes({', '.join(rows)})"

    def of(self, prefix: Prefix | str) -> dict[int, Path]:
        """The path of each router for one prefix."""
        wanted = Prefix.named(prefix) if isinstance(prefix, str) else prefix
        return {router: path for (router, own), path in self.items() if own == wanted}


NO_ROUTES = Routes({})


def parted(lines: Iterable[str], heads: Sequence[str]) -> list[list[str]]:
    """Lines in parts that begin with a line of one of these first words; those above the first of them are in none."""
    found: list[list[str]] = []
    for line in lines:
        if line.split()[0] in heads:
            found.append([])
        if found:
            found[-1].append(line)
    return found


# ---- play, run

@dataclass(frozen=True)
class Snapshot:
    """How a snapshot came out: `verdict` is "settled", "moving" or "abandoned"; `why` says which fault or loss it is,
    of which router and, where the fault has one, of which peer; a settled one has its routes."""

    number: int
    verdict: str
    router: int | None = None
    why: str | None = None
    peer: int | None = None
    routes: Routes = NO_ROUTES


@dataclass(frozen=True)
class Played:
    """What a schedule leads to: its decided snapshots, by number, and the routes at its end."""

    snapshots: tuple[Snapshot, ...]
    routes: Routes


@dataclass(frozen=True)
class Settled:
    """What a run of threads leads to: whether a snapshot settled, and its routes."""

    settled: bool
    routes: Routes


def snapshot_of(line: str, routes: Sequence[str]) -> Snapshot:
    words = line.split()
    number, verdict = int(words[1]), words[2]
    if verdict == "moving":
        return Snapshot(number, verdict, int(words[3]), words[4], int(words[5]) if len(words) > 5 else None)
    if verdict == "abandoned":
        return Snapshot(number, verdict, int(words[3]), words[5], int(words[4]))
    return Snapshot(number, verdict, routes=Routes(routes_of(routes)))


def read_play(lines: Sequence[str]) -> Played:
    *snapshots, (_, *now) = parted(lines, ("snapshot", "now"))
    return Played(tuple(snapshot_of(line, routes) for line, *routes in snapshots), Routes(routes_of(now)))


def routes_behind(program: Program, text: str, name: str) -> Routes:
    """The routes at the end of a text's schedule; a refusal names the line of the file `name`."""
    return read_play(program.answer(["play"], text, name)).routes


def read_run(lines: Sequence[str]) -> Settled:
    return Settled(list(lines) != ["unsettled"], Routes(routes_of(lines)))


# ---- check, stable, safe

@dataclass(frozen=True)
class Judgement:
    """Whether an assignment is stable; where it is not, the least router that has not the best of its choices, of the
    first prefix that is not stable, with the path that it has, and its best one."""

    stable: bool
    router: int | None = None
    has: Path = ()
    best: Path = ()


@dataclass(frozen=True)
class Dispute:
    """Routers whose paths depend on each other: how many choices they have, and the path of each in each choice."""

    count: int
    routers: tuple[int, ...]
    choices: tuple[tuple[Path, ...], ...]


@dataclass(frozen=True)
class StablePrefix:
    """The stable assignments of a prefix: how many there are, None where they are more than the program counts; the
    paths that routers have in all of them; the disputes; and of each router that follows the paths that it may have,
    best first where `ranked` put them so. Where a limit was met `unknown` names it, with its routers in `routers`, and
    nothing else is said."""

    prefix: Prefix
    count: int | None
    paths: Mapping[int, Path]
    disputes: tuple[Dispute, ...]
    followers: Mapping[int, tuple[Path, ...]] = field(default_factory=dict)
    unknown: str | None = None
    routers: tuple[int, ...] = ()

    def ranked(self, key: Callable[[int, Path], Any]) -> StablePrefix:
        """The same, the paths of each router that follows by this key of router and path, none behind all."""
        def in_order(router: int, paths: tuple[Path, ...]) -> tuple[Path, ...]:
            found = sorted((path for path in paths if path), key=functools.partial(key, router))
            return (*found, ()) if () in paths else tuple(found)

        return replace(self, followers={router: in_order(router, paths) for router, paths in self.followers.items()})

    def assignments(self) -> Iterator[dict[int, Path]]:
        """Each stable assignment, as the path of each router: of each dispute a choice, and of each router that follows
        the first of its paths that goes on by that of its peer. None of a prefix of which nothing is said."""
        for chosen in itertools.product(*(dispute.choices for dispute in self.disputes)) if not self.unknown else ():
            paths = dict(self.paths)
            for dispute, choice in zip(self.disputes, chosen):
                paths.update(zip(dispute.routers, choice))
            for _ in self.followers:
                paths.update({router: next((path for path in own if path and paths.get(path[1]) == path[1:]), ())
                              for router, own in self.followers.items()})
            yield dict(sorted(paths.items()))


@dataclass(frozen=True, order=True)
class Rim:
    """A rim of a dispute wheel: a router that has `path` likes `better` more, which goes on by the path of the next
    rim, that of the router `through`."""

    path: Path
    better: Path
    through: int


@dataclass(frozen=True)
class SafePrefix:
    """Whether a prefix has no dispute wheel, None where a limit was met, of `router`; and the rims of the one that was
    found."""

    prefix: Prefix
    safe: bool | None
    rims: tuple[Rim, ...] = ()
    router: int | None = None


def read_check(lines: Sequence[str]) -> Judgement:
    words = lines[0].split()
    if words[0] == "stable":
        return Judgement(True)
    return Judgement(False, int(words[1]), read_path(words[3]), read_path(words[5]))


def read_check_all(lines: Sequence[str]) -> dict[Prefix, tuple[Judgement, ...]]:
    """What `check --all` says: of each prefix each router that would move, none where it is stable."""
    return {Prefix.read(head.split()[1]): tuple(read_check([line]) for line in rows)
            for head, *rows in parted(lines, ("prefix",))}


def counted(word: str) -> int | None:
    return int(word) if word.isdigit() else None


def read_stable(lines: Sequence[str]) -> tuple[StablePrefix, ...]:
    return tuple(map(stable_prefix, parted(lines, ("prefix",))))


def stable_prefix(lines: Sequence[str]) -> StablePrefix:
    head, *rows = map(str.split, lines)
    prefix = Prefix.read(head[1])
    if head[2] == "unknown":
        return StablePrefix(prefix, None, {}, (), {}, head[3], tuple(map(int, head[4:])))
    return StablePrefix(prefix, counted(head[3]), {int(words[1]): read_path(words[3]) for words in rows
                                                   if words[0] == "route"},
                        tuple(map(dispute_of, parted(lines, ("dispute",)))),
                        {int(words[1]): tuple(map(read_path, words[3:])) for words in rows if words[0] == "follow"})


def dispute_of(lines: Sequence[str]) -> Dispute:
    head, *rows = map(str.split, lines)
    return Dispute(int(head[4]), tuple(map(int, head[head.index("routers") + 1:])),
                   tuple(tuple(map(read_path, words[1:])) for words in rows if words[0] == "choice"))


def read_safe(lines: Sequence[str]) -> tuple[SafePrefix, ...]:
    return tuple(map(safe_prefix, parted(lines, ("prefix",))))


def safe_prefix(lines: Sequence[str]) -> SafePrefix:
    head, *rows = map(str.split, lines)
    prefix = Prefix.read(head[1])
    if head[2] == "unknown":
        return SafePrefix(prefix, None, router=int(head[4]))
    rims = [(read_path(words[1]), read_path(words[3])) for words in rows]
    following = [path for path, _ in rims[1:] + rims[:1]]
    return SafePrefix(prefix, head[2] == "safe", tuple(
        Rim(path, better, after[0]) for (path, better), after in zip(rims, following)))


# ---- cut, why

@dataclass(frozen=True)
class Flight:
    """An UPDATE in flight: who sent it to whom, and the line that `decode` prints for it."""

    sender: int
    receiver: int
    message: str


@dataclass(frozen=True)
class Cut:
    """What a snapshot saw: whether it was decided and not abandoned; how many of the events stand inside it, and how
    many there are; the routes that were recorded, and the UPDATEs in flight."""

    snapshot: int
    seen: bool
    inside: int = 0
    events: int = 0
    routes: Routes = NO_ROUTES
    flights: tuple[Flight, ...] = ()


@dataclass(frozen=True)
class Session:
    """A router's session with a peer: its state, the last incarnation that the router dialled, how many octets wait in
    the outbox, whether something is on its way to the router, and of each timer that runs the seconds that are left."""

    peer: int
    state: str
    incarnation: int
    outbox: int
    on_its_way: bool
    timers: Mapping[str, int] = field(default_factory=dict)


@dataclass(frozen=True)
class Heard:
    """What a peer's last word for a prefix is, and what the router makes of it: `choice` is the path along the peer, or
    `not_used` says why it is none; `place` is its place in the rule, from 1."""

    peer: int
    path: Path
    kept: bool
    not_used: str | None = None
    choice: Path | None = None
    place: int | None = None


@dataclass(frozen=True)
class Known:
    """What a router knows of a prefix: the path that it keeps, whether it originates the prefix, what it heard, and the
    peers to whom it told that path."""

    prefix: Prefix
    keeps: Path
    originated: bool
    heard: tuple[Heard, ...]
    told: tuple[int, ...]


@dataclass(frozen=True)
class Why:
    """What a router knows at the end: its sessions, by peer, and its prefixes."""

    router: int
    sessions: tuple[Session, ...]
    prefixes: tuple[Known, ...]


def read_cut(lines: Sequence[str]) -> Cut:
    words = lines[0].split()
    if words[2] == "none":
        return Cut(int(words[1]), False)
    flights = [line.split(" ", 3) for line in lines[1:] if line.startswith("flight ")]
    return Cut(int(words[1]), True, int(words[3]), int(words[5]), Routes(routes_of(lines[1:])), tuple(
        Flight(int(sender), int(receiver), message) for _, sender, receiver, message in flights))


def read_why(lines: Sequence[str]) -> Why:
    (head, *_), *parts = parted(lines, ("router", "peer", "prefix"))
    return Why(int(head.split()[1]), tuple(session_of(*part) for part in parts if part[0].startswith("peer ")),
               tuple(known_of(*part) for part in parts if part[0].startswith("prefix ")))


def session_of(head: str, timers: str = "") -> Session:
    words, times = head.split(), timers.split()[1:]
    return Session(int(words[1]), words[2], int(words[4]),
                   int(words[words.index("outbox") + 1]) if "outbox" in words else 0, head.endswith(" on its way"),
                   dict(zip(times[::2], map(int, times[1::2]))))


def known_of(head: str, *lines: str) -> Known:
    words = head.split()
    heard = tuple(heard_of(*line.split(": ", 1)) for line in lines if line.split()[0] == "from")
    told = next((tuple(map(int, line.split()[1:])) for line in lines if line.split()[0] == "told"), ())
    return Known(Prefix.read(words[1]), read_path(words[3].rstrip(",")), head.endswith(", originated"), heard, told)


def heard_of(said: str, what: str) -> Heard:
    """What a peer says, and what the router makes of it."""
    words, parts = said.split(), what.split(", ")
    peer, path = int(words[1]), read_path(words[2])
    if parts[0] in ("loop", "not permitted"):
        return Heard(peer, path, False, parts[0])
    place = next((int(part[6:]) for part in parts[1:] if part.startswith("place ")), None)
    return Heard(peer, path, "kept" in parts[1:], None, read_path(parts[0]), place)


# ---- as JSON

def routes_json(routes: Mapping[Tuple[int, Prefix], Path]) -> list[Json]:
    return [{"router": router, "prefix": str(prefix), "path": path_text(path)}
            for (router, prefix), path in routes.items()]


def changes_json(changes: Iterable[Tuple[int, Path, Path]]) -> list[Json]:
    """Routers whose path is another, each with the old one and the new one."""
    return [{"router": router, "from": path_text(old), "to": path_text(new)} for router, old, new in changes]


def snapshot_json(one: Snapshot) -> Json:
    found: dict[str, Any] = {"snapshot": one.number, "verdict": one.verdict}
    if one.verdict == "moving":
        found.update(router=one.router, why=one.why, **({} if one.peer is None else {"peer": one.peer}))
    elif one.verdict == "abandoned":
        found.update(router=one.router, peer=one.peer, why=one.why)
    return {**found, "routes": routes_json(one.routes)}


def play_json(lines: Sequence[str]) -> Json:
    found = read_play(lines)
    return {"snapshots": list(map(snapshot_json, found.snapshots)), "now": routes_json(found.routes)}


def check_json(lines: Sequence[str]) -> Json:
    if lines[0].startswith("prefix "):
        return {"prefixes": [
            {"prefix": str(prefix), "stable": not moving, "unstable": list(map(judgement_json, moving))}
            for prefix, moving in read_check_all(lines).items()]}
    found = read_check(lines)
    return {"stable": True} if found.stable else {"stable": False, **judgement_json(found)}


def judgement_json(one: Judgement) -> Json:
    return {"router": one.router, "has": path_text(one.has), "best": path_text(one.best)}


def stable_json(lines: Sequence[str]) -> Json:
    return {"prefixes": list(map(stable_prefix_json, read_stable(lines)))}


def stable_prefix_json(one: StablePrefix) -> Json:
    if one.unknown:
        return {"prefix": str(one.prefix), "unknown": one.unknown, "routers": list(one.routers)}
    return {"prefix": str(one.prefix), "stable": "many" if one.count is None else one.count,
            "routes": routes_json({(router, one.prefix): path for router, path in one.paths.items()}),
            "disputes": [{"stable": dispute.count, "routers": list(dispute.routers),
                          "choices": [list(map(path_text, choice)) for choice in dispute.choices]}
                         for dispute in one.disputes],
            "follow": [{"router": router, "paths": list(map(path_text, paths))}
                       for router, paths in one.followers.items()]}


def cut_json(lines: Sequence[str]) -> Json:
    found = read_cut(lines)
    if not found.seen:
        return {"snapshot": found.snapshot, "seen": False}
    return {"snapshot": found.snapshot, "seen": True, "inside": found.inside, "events": found.events,
            "routes": routes_json(found.routes),
            "flights": [{"from": one.sender, "to": one.receiver, "message": one.message} for one in found.flights]}


def why_json(lines: Sequence[str]) -> Json:
    found = read_why(lines)
    return {"router": found.router, "peers": list(map(asdict, found.sessions)),
            "prefixes": [{"prefix": str(one.prefix), "keeps": path_text(one.keeps), "originated": one.originated,
                          "from": list(map(heard_json, one.heard)), "told": list(one.told)} for one in found.prefixes]}


def heard_json(one: Heard) -> Json:
    found = {"peer": one.peer, "path": path_text(one.path), "kept": one.kept}
    if one.choice is None:
        return {**found, "not_used": one.not_used}
    return {**found, "choice": path_text(one.choice), "place": one.place}


def decode_json(lines: Sequence[str]) -> Json:
    return {"messages": [line for line in lines if not re.fullmatch("[0-9a-f]{42,}", line)],
            "notification": next((line for line in lines if re.fullmatch("[0-9a-f]{42,}", line)), None)}


def trace_json(lines: Sequence[str]) -> Json:
    """The events, each with what was said of it."""
    events: list[dict[str, Any]] = []
    for row in rows_of(lines):
        if row.kind is Kind.EVENT:
            events.append({"event": row.text, "said": []})
        elif row.kind is Kind.SAID and events:
            events[-1]["said"].append(row.text)
    return {"events": events}


def run_json(lines: Sequence[str]) -> Json:
    found = read_run(lines)
    return {"settled": found.settled, "routes": routes_json(found.routes)}


FORMS: Mapping[str, Callable[[Sequence[str]], Json]] = {
    "play": play_json, "check": check_json, "stable": stable_json, "cut": cut_json, "why": why_json,
    "decode": decode_json, "trace": trace_json, "record": trace_json, "run": run_json}


def counts_json(trace: Sequence[str]) -> Json:
    """How many events a run had, how many UPDATEs were told, and behind which round its last order of rounds rested."""
    rows = list(rows_of(trace))
    ended = [row for row in rows if row.is_of_rounds]
    return {**asdict(counts_of(rows)), "rounds": ended[-1].rest if ended else None}


def said_of(words: Sequence[str], lines: Sequence[str]) -> Json:
    """What a word says, as JSON has it; of a word that is not known here its lines."""
    form = FORMS.get(words[0])
    return form(lines) if form and lines else {"lines": list(lines)}
