"""Networks as the program reads them, of texts that it has taken: it alone refuses (`read_network` asks it)."""
from __future__ import annotations

import argparse
import ipaddress
import random
import re
from typing import Collection, Dict, FrozenSet, Iterable, Iterator, Mapping, NamedTuple, Sequence, Tuple

from bgpnet.program import Program, Refusal, read_text

# The limits of networks (docs/TEXTS.md).
MOST_ROUTERS = 64
MOST_LINKS = 16
MOST_PREFIXES = 256
MOST_RULES = 64
MOST_PATHS = 32
LONGEST_PATH = 16
GREATEST_ASN = 2**32 - 1
# Above it a network needs the line `asn 4`.
GREATEST_OF_TWO_OCTETS = 65535

SECTIONS = ("assignment", "schedule")


def read_number(word: str) -> int:
    """The number that decimal digits spell, however many zeros stand in front."""
    return int(word.lstrip("0") or "0")


def read_address(word: str) -> int:
    """The value of an IPv4 address, whose parts may have zeros in front."""
    value = 0
    for part in word.split("."):
        value = value << 8 | read_number(part)
    return value


# How a prefix is written.
PREFIX_FORM = re.compile(r"(\d{1,9})\.(\d{1,9})\.(\d{1,9})\.(\d{1,9})/(\d{1,9})", re.ASCII)


class Prefix(NamedTuple):
    """An IPv4 prefix: the bits of its address past its length are cleared. Prefixes are ordered as they are printed."""

    address: int
    length: int

    @staticmethod
    def read(word: str) -> Prefix:
        address, length = word.split("/")
        value, past = read_address(address), 32 - read_number(length)
        return Prefix(value >> past << past, 32 - past)

    @staticmethod
    def named(word: str) -> Prefix:
        """The prefix that a word of a user names; refuses a word that names none."""
        found = PREFIX_FORM.fullmatch(word)
        parts = [read_number(part) for part in found.groups()] if found else []
        if not parts or parts.pop() > 32 or max(parts) > 255:
            raise Refusal(f"'{word}' is no prefix")
        return Prefix.read(word)

    def covers(self, other: Prefix) -> bool:
        return self.length <= other.length and self.address >> 32 - self.length == other.address >> 32 - self.length

    def __repr__(self) -> str:
        return f"Prefix.read('{self}')"

    def __str__(self) -> str:
        return f"{ipaddress.IPv4Address(self.address)}/{self.length}"


# The routers of a path, from the one that uses it to the origin; none of no path.
Path = Tuple[int, ...]
# A link as a network has it, and as the set of its ends.
Link = Tuple[int, int]
Ends = FrozenSet[int]
# The path of each router for each prefix.
RouteDict = Dict[Tuple[int, Prefix], Path]


class Rule(NamedTuple):
    """A rule of a router: its paths for the prefixes inside `prefix`, best first, and the number of its line."""

    prefix: Prefix
    paths: list[Path]
    line: int


def read_path(word: str) -> Path:
    """The routers of a path, from the one that uses it to the origin; none of `none`."""
    return () if word == "none" else tuple(map(read_number, word.split("-")))


def path_text(path: Iterable[object]) -> str:
    return "-".join(map(str, path)) or "none"


def lines_text(lines: Iterable[str]) -> str:
    """Lines as a text, each with its end."""
    return "".join(line + "\n" for line in lines)


def words_of(line: str) -> list[str]:
    """The words of a line, none where the program skips it."""
    words = line.rstrip("\r").replace("\t", " ").split(" ")
    words = [word for word in words if word]
    return [] if words and words[0].startswith("#") else words


def numbered(lines: Iterable[str], first: int = 1) -> list[tuple[int, list[str]]]:
    """The words of the lines that the program does not skip, each with the number of its line."""
    return [(number, words) for number, words in enumerate(map(words_of, lines), first) if words]


def parts_of(text: str) -> tuple[list[str], str | None, list[str]]:
    """The lines of the network, the last of them that of its section where there is one; the section's word, or None;
    and the lines behind it."""
    lines = text.split("\n")
    for at, line in enumerate(lines):
        words = words_of(line)
        if len(words) == 1 and words[0] in SECTIONS:
            return lines[:at + 1], words[0], lines[at + 1:]
    return lines, None, []


# How a comment names a router, and says what one router is to another.
NUMBER_FORM = "([0-9]{1,10})"
RELATION = re.compile(rf"# {NUMBER_FORM} (customer|peer) of {NUMBER_FORM}\s*")
TURNED = {"customer": "provider", "peer": "peer"}
# How a comment says where a router stands in a picture, in steps to the right and down, and what it is called.
STEPS_FORM = r"(-?[0-9]{1,9}(?:\.[0-9]{1,9})?)"
PLACE = re.compile(rf"# {NUMBER_FORM} at {STEPS_FORM} {STEPS_FORM}\s*")
NAME_FORM = r"[A-Za-z0-9_][A-Za-z0-9_.-]*"
NAME = re.compile(rf"# {NUMBER_FORM} called ({NAME_FORM})\s*")
# How a comment says that a router keeps the routes of a peer that restarts, as FRR does by `bgp graceful-restart`.
KEEPS = re.compile(rf"# {NUMBER_FORM} keeps routes of peers that restart\s*")
# The comments that a text keeps which is written of a network.
REMARKS = RELATION, PLACE, NAME, KEEPS


def comments_of(form: re.Pattern[str], lines: Iterable[str]) -> Iterator[re.Match[str]]:
    """The comments of a form among the lines."""
    return filter(None, map(form.fullmatch, lines))


def is_name(word: str | None) -> bool:
    """Whether comments can call a router so."""
    return word is not None and re.fullmatch(NAME_FORM, word) is not None


def telling(names: Mapping[int, str]) -> dict[int, str]:
    """The names of routers that tell them apart: of no two, and no number."""
    given = list(names.values())
    return {router: name for router, name in names.items()
            if given.count(name) == 1 and not name.isdigit() and is_name(name)}


def distances(peers: Mapping[int, Iterable[int]], start: int, without: Collection[Ends] = ()) -> dict[int, int]:
    """How many links lead from a router to each one that links lead to, the nearer in front, without some links."""
    found, waiting = {start: 0}, [start]
    for one in waiting:
        for peer in peers[one]:
            if peer not in found and frozenset((one, peer)) not in without:
                found[peer] = found[one] + 1
                waiting.append(peer)
    return found


class Named:
    """How routers, paths and links are written of routers that have names: `called` has those that tell them apart."""

    called: Mapping[int, str] = {}

    def name_of(self, router: int) -> str:
        return self.called.get(router, str(router))

    def router_text(self, router: int) -> str:
        """The number of a router, and its name."""
        return f"{router} {self.called[router]}" if router in self.called else str(router)

    def path_text(self, path: Iterable[int]) -> str:
        return path_text(map(self.name_of, path))

    def link_text(self, link: Iterable[int]) -> str:
        return link_text(map(self.name_of, link))


class Network(Named):
    """The routers, links, origins and rules of a network.

    `lines` are its lines without those that are skipped, `peers` the peers of each router, rising, `origins` the
    router of each prefix, by address, then length, `rules` those of each router, `cut` the most octets of a piece,
    `hold` the hold time in seconds, `width` the octets of an AS number. As comments say it, `relations` is what the
    second of two routers is to the first: "customer", "provider" or "peer"; `places` is where routers stand in a
    picture, `names` what they are called, `called` the names by which they are told apart, `remarks` the comments that
    say all this, and `keeping` those that keep the routes of a peer that restarts."""

    def __init__(self, lines: Sequence[str]) -> None:
        self.lines: list[str] = []
        self.routers: list[int] = []
        self.links: list[Link] = []
        self.peers: dict[int, list[int]] = {}
        self.rules: dict[int, list[Rule]] = {}
        self.relations: dict[Link, str] = {}
        for found in comments_of(RELATION, lines):
            one, relation, other = int(found[1]), found[2], int(found[3])
            self.relations[other, one], self.relations[one, other] = relation, TURNED[relation]
        self.names = {int(found[1]): found[2] for found in comments_of(NAME, lines)}
        self.called = telling(self.names)
        self.keeping = [int(found[1]) for found in comments_of(KEEPS, lines)]
        self.cut, self.hold, self.width = 4096, 90, 2
        origins: dict[Prefix, int] = {}
        for number, words in numbered(lines):
            if words[0] in SECTIONS:
                continue
            self.lines.append(" ".join(words))
            first = read_number(words[1])
            if words[0] == "router":
                self.routers.append(first)
                self.peers[first], self.rules[first] = [], []
            elif words[0] == "link":
                link = first, read_number(words[2])
                self.links.append(link)
                for end, other in (link, link[::-1]):
                    self.peers[end].append(other)
            elif words[0] == "origin":
                origins[Prefix.read(words[2])] = first
            elif words[0] == "cut":
                self.cut = first
            elif words[0] == "hold":
                self.hold = first
            elif words[0] == "asn":
                self.width = first
            elif words[0] == "rank":
                self.rules[first].append(Rule(Prefix.read(words[2]), [read_path(word) for word in words[3:]], number))
        self.routers.sort()
        self.remarks = lines_text(line for line in lines if any(form.fullmatch(line) for form in REMARKS))
        self.places = {int(found[1]): (float(found[2]), float(found[3])) for found in comments_of(PLACE, lines)
                       if int(found[1]) in self.peers}
        for peers in self.peers.values():
            peers.sort()
        self.origins = {prefix: origins[prefix] for prefix in sorted(origins)}

    @property
    def text(self) -> str:
        return lines_text(self.lines)

    def leave_out(self, links: Iterable[Ends]) -> None:
        """Leaves links out of `links` and `peers`. `text` has them."""
        self.links = [link for link in self.links if frozenset(link) not in links]
        for router, peers in self.peers.items():
            peers[:] = [peer for peer in peers if frozenset((router, peer)) not in links]

    def distances(self, router: int, without: Collection[Ends] = ()) -> dict[int, int]:
        return distances(self.peers, router, without)

    def rule(self, router: int, prefix: Prefix) -> Rule | None:
        """The rule of a router that applies to a prefix, the longest that covers it, or none."""
        covering = [rule for rule in self.rules[router] if rule.prefix.covers(prefix)]
        return max(covering, key=lambda rule: rule.prefix.length) if covering else None

    def ranked(self, router: int, prefix: Prefix) -> list[Path] | None:
        """The paths that a router's rule permits for a prefix, best first; None where no rule applies."""
        origin = self.origins[prefix]
        if router == origin:
            return [(origin,)]
        rule = self.rule(router, prefix)
        return rule and [path for path in rule.paths if path[-1] == origin]


def read_network(program: Program, text: str, name: str) -> tuple[Network, str | None, list[str]]:
    """The network of a text, the word of its section and the section's lines. Where the program refuses the network,
    so does this, by the line of the file `name`."""
    lines, section, rest = parts_of(text)
    above = "\n".join(lines[:-1] + [""] if section else lines)
    program.answer(["check"], above, name)
    return Network(lines), section, rest


def network_asked(asked: argparse.Namespace, name: str) -> tuple[Program, str, Network, str | None, list[str]]:
    """The program that a command line names, and the text of this name: with its network, and its section and lines."""
    program, text = Program(asked.program), read_text(name)
    return (program, text, *read_network(program, text, name))


def routes_of(lines: Iterable[str]) -> RouteDict:
    """The paths of `route` and `path` lines, by router and prefix. Of two of one router and prefix it is the last."""
    routes = {}
    for _, words in numbered(lines):
        if words[0] in ("route", "path"):
            routes[read_number(words[1]), Prefix.read(words[2])] = read_path(words[3])
    return routes


def read_router(network: Network, word: str) -> int | None:
    """The router that a word names, by its number, or as a comment calls it; None of nobody."""
    if word.isascii() and word.isdigit():
        return read_number(word) if read_number(word) in network.peers else None
    named = [router for router, name in network.names.items() if name == word and router in network.peers]
    return named[0] if len(named) == 1 else None


def read_link(network: Network, word: str) -> Link:
    """The link of a network that `U-V` names, as the network has it. A name may have a dash in it."""
    for at, letter in enumerate(word):
        if letter == "-":
            link = read_router(network, word[:at]), read_router(network, word[at + 1:])
            for known in network.links:
                if known in (link, link[::-1]):
                    return known
    raise Refusal(f"there is no link {word}: a link is written as U-V")


def link_text(link: Iterable[object]) -> str:
    return "-".join(map(str, link))


def at_both_ends(word: str, links: Iterable[Link]) -> list[str]:
    """An order for each end of each link."""
    return [f"{word} {end} {other}" for link in links for end, other in (link, link[::-1])]


def starts(network: Network) -> list[str]:
    """The orders that start each session of a network from both ends."""
    return at_both_ends("start", network.links)


def originations(network: Network) -> list[str]:
    """The orders that originate each prefix of a network at its origin."""
    return [f"originate {router} {prefix}" for prefix, router in network.origins.items()]


def usual_orders(network: Network, rounds: int, later: int, draw: random.Random | None = None) -> list[str]:
    """The orders by which each session comes up and each prefix is originated, then rounds, a snapshot by the least
    router, and later rounds in which it comes out. With `draw` sessions, and then prefixes, come in its order."""
    begin, announce = starts(network), originations(network)
    for orders in (begin, announce) if draw else ():
        orders.sort(key=lambda _: draw.random() if draw else 0)
    return [*begin, *announce, f"rounds {rounds}", f"snapshot {network.routers[0]} 1", f"rounds {later}"]
