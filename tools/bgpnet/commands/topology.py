"""Makes a network, with its policies and its schedule, of a graph of autonomous systems.

    tools/topology --from as-rel ten.as-rel --origin 7 | bgpnet play
    tools/topology --from as-rel as-rel.txt --around 3356 --keep 40 --origin 3356 > part.txt
    tools/topology --routers 24 --seed 3 | bgpnet play
    tools/topology --from network net.txt        a schedule for a network that is there

It reads a graph: CAIDA's AS relationships (`A|B|-1`, A is a provider of B, and `A|B|0`, peers), edge lists (`A B`),
DOT, or GraphML; or it makes a hierarchy of N routers, the same for the same seed. Nodes of DOT and GraphML that are not
named by AS numbers are numbered from 1, and comments say which is which.

Rules gao-rexford: a router likes paths through a customer better than those through a peer, these better than those
through a provider, then the shorter; paths that its peer would not tell it (what comes from a peer or a provider is
told to customers alone) are not permitted, and of the others the best 32. Such a network comes to rest in every order
(Gao and Rexford 2001). Rules shortest: no rule, so each router takes a shortest path. Comments above the links say who
is whose customer or peer.

With --backup U-V the routers U and V like paths over their link behind all others, as the communities of RFC 4264 ask;
then the network need not come to rest in one way: tools/settle says. With --prepend U-V:N router U tells V its paths
with its number N times more, so that at V and behind it they count as that much longer.

The schedule starts each session from both ends, originates the prefixes (10.1.0.0/16 of the first origin,
10.2.0.0/16 of the second), plays rounds, and takes a snapshot. A graph that passes a limit of networks is refused;
--keep takes a part."""
import graphlib
import random
import re
import sys
import xml.etree.ElementTree

from bgpnet import network as texts
from bgpnet.network import (GREATEST_ASN, GREATEST_OF_TWO_OCTETS, LONGEST_PATH, MOST_LINKS, MOST_PATHS, MOST_ROUTERS,
                            Network, path_text)
from bgpnet.program import Program, Refusal, Words, count, read_octets, tool

CUSTOMER, PEER, PROVIDER = range(3)
TURNED = {CUSTOMER: PROVIDER, PEER: PEER, PROVIDER: CUSTOMER, None: None}
RULES = ("gao-rexford", "shortest")
PART = "--around AS --keep N takes a part"
# The rounds behind the snapshot of a schedule.
LATER = 100


class Graph:
    """Routers and links, the kind of each end: what `b` is to `a`, None where nothing is said.

    `lines` has the place where each router first stands, `labels` what a router is called that is not called by its
    number, and `comments` what else a reader of the network has to know."""

    def __init__(self):
        self.lines, self.kinds, self.labels, self.comments = {}, {}, {}, []

    def add(self, one, other, kind=None, place=""):
        """Adds a link; one that is there counts once."""
        for router in (one, other):
            self.lines.setdefault(router, place)
        if one == other:
            raise Refusal(f"{place}: a link of {one} with itself")
        if self.kinds.get((one, other), kind) != kind:
            raise Refusal(f"{place}: {one} and {other} have another relation before")
        self.kinds[one, other], self.kinds[other, one] = kind, TURNED[kind]

    @property
    def routers(self):
        return sorted(self.lines)

    def links(self):
        """Each link once, from its provider, or from its least router."""
        return sorted((one, other) for (one, other), kind in self.kinds.items()
                      if kind == CUSTOMER or kind in (PEER, None) and one < other)

    def peers(self):
        """The peers of each router, rising."""
        found = {router: [] for router in self.lines}
        for one, other in self.kinds:
            found[one].append(other)
        return {router: sorted(peers) for router, peers in found.items()}

    def part(self, around, most):
        """The routers nearest to one, those with most links first, and the links between them as there is room."""
        if around not in self.lines:
            raise Refusal(f"there is no AS {around}")
        peers, used, chosen = self.peers(), {around: 0}, Graph()
        chosen.lines[around] = self.lines[around]
        for one in (queue := [around]):
            for other in sorted(peers[one], key=lambda peer: (-len(peers[peer]), peer)):
                if other not in used and len(used) < most and used[one] < MOST_LINKS:
                    queue.append(other)
                    used[one], used[other] = used[one] + 1, 1
                    chosen.add(one, other, self.kinds[one, other], self.lines[other])
        omitted = 0
        for one, other in self.links():
            if one in used and other in used and (one, other) not in chosen.kinds:
                if max(used[one], used[other]) == MOST_LINKS:
                    omitted += 1
                    continue
                used[one], used[other] = used[one] + 1, used[other] + 1
                chosen.add(one, other, self.kinds[one, other], self.lines[other])
        left = len(self.lines) - len(used)
        chosen.labels = {router: label for router, label in self.labels.items() if router in used}
        chosen.comments = [f"{len(used)} routers around {around}; {left} stand outside"]
        if omitted:
            chosen.comments.append(f"{omitted} links between them are left out: a router has at most {MOST_LINKS}")
        return chosen


# ---- graphs that are read

def numbered(name, line, word):
    if not (word.isascii() and word.isdigit()) or len(word) > 10 or int(word) == 0:
        raise Refusal(f"{name}:{line}: '{word}' is no AS number")
    return int(word)


def read_relations(text, name):
    """CAIDA's AS relationships, of either form."""
    graph = Graph()
    for line, written in enumerate(text.splitlines(), 1):
        words = written.strip().split("|")
        if words == [""] or words[0].startswith("#"):
            continue
        if len(words) not in (3, 4) or words[2] not in ("-1", "0"):
            raise Refusal(f"{name}:{line}: not `A|B|-1` or `A|B|0`")
        one, other = (numbered(name, line, word) for word in words[:2])
        graph.add(one, other, CUSTOMER if words[2] == "-1" else PEER, f"{name}:{line}")
    return graph


def read_edges(text, name):
    """Two AS numbers a line."""
    graph = Graph()
    for line, written in enumerate(text.splitlines(), 1):
        words = written.split("#")[0].split()
        if not words:
            continue
        if len(words) != 2:
            raise Refusal(f"{name}:{line}: not two AS numbers")
        graph.add(*(numbered(name, line, word) for word in words), place=f"{name}:{line}")
    return graph


# What says nothing in a DOT file, and as a group its words: strings, names, HTML strings, signs.
DOT_WORD = re.compile(r"""\s+|//[^\n]*|/\*.*?\*/|(?<![^\n])\#[^\n]*|
                      ("(?:\\.|[^"\\])*"|-?[\w.]+|<(?:[^<>]|<[^<>]*>)*>|--|->|[\[\]{};,=:])""", re.DOTALL | re.VERBOSE)


def dot_words(text, name):
    """The words of a DOT file, each with its line."""
    at, line = 0, 1
    while at < len(text):
        found = DOT_WORD.match(text, at)
        if not found:
            raise Refusal(f"{name}:{line}: '{text[at]}' can't be read")
        if found.group(1):
            yield found.group(1), line
        line += found.group().count("\n")
        at = found.end()


def read_dot(text, name):
    """The edges of a DOT file, and the names of its nodes. Attributes, and the directions of edges, say nothing."""
    words = list(dot_words(text, name))
    last_line = text.count("\n") + 1
    words += [("", last_line)] * 2
    at = next((at for at, (word, _) in enumerate(words) if word in ("{", "")))
    names, edges, last, is_edge, depth = {}, [], None, False, 0
    while words[at][0]:
        (word, line), following = words[at], words[at + 1][0]
        at += 1
        if word in "{}":
            if is_edge or word == "}" and following in ("--", "->"):
                raise Refusal(f"{name}:{line}: edges of groups of nodes are not read")
            depth, last = depth + (1 if word == "{" else -1), None
            if not depth:
                return named(names, {}, edges, name)
        elif word == "[":
            while words[at][0] not in ("]", ""):
                at += 1
        elif word in ("--", "->"):
            is_edge = last is not None
        elif word in ("=", ":", "subgraph"):
            at += following not in ("{", "")
        elif word in (";", ",", "]") or following == "[" and word in ("graph", "node", "edge"):
            last, is_edge = None, False
        elif following != "=":
            node = word[1:-1] if word[0] == '"' else word
            names.setdefault(node, line)
            if is_edge:
                edges.append((last, node, line))
            last, is_edge = node, False
    raise Refusal(f"{name}:{last_line}: no whole graph")


def read_graphml(text, name):
    """The edges of a GraphML file, and the names and labels of its nodes. The directions of edges say nothing."""
    try:
        root = xml.etree.ElementTree.fromstring(text)
    except xml.etree.ElementTree.ParseError as why:
        raise Refusal(f"{name}:{why.position[0]}: {why}")
    except (LookupError, ValueError) as why:
        raise Refusal(f"{name}: {why}")
    elements = [(element.tag.split("}")[-1], element) for element in root.iter()]
    keys = {element.get("id") for tag, element in elements if tag == "key" and element.get("attr.name") == "label"}
    names, labels, edges = {}, {}, []
    for tag, element in elements:
        if tag == "node":
            if element.get("id") is None:
                raise Refusal(f"{name}: a node without an id")
            names[element.get("id")] = 0
            for data in element:
                if data.get("key") in keys and data.text:
                    labels[element.get("id")] = data.text.strip()
        elif tag == "edge":
            edges.append((element.get("source"), element.get("target"), 0))
    for ends in edges:
        for end in ends[:2]:
            if end not in names:
                raise Refusal(f"{name}: an edge of a node {end} that is not there")
    return named(names, labels, edges, name)


def named(names, labels, edges, name):
    """The graph of named nodes: by their names where all are AS numbers, else numbered as they come."""
    graph, numbers = Graph(), {}
    are_numbers = all(node.isascii() and node.isdigit() and len(node) <= 10 and int(node) for node in names)
    for at, (node, line) in enumerate(names.items(), 1):
        numbers[node] = int(node) if are_numbers else at
        graph.lines[numbers[node]] = f"{name}:{line}" if line else name
        label = labels.get(node, node)
        if not are_numbers or label != node:
            graph.labels[numbers[node]] = " ".join(label.split())
    for one, other, line in edges:
        graph.add(numbers[one], numbers[other], place=f"{name}:{line}" if line else name)
    return graph


READERS = {"as-rel": read_relations, "edges": read_edges, "dot": read_dot, "graphml": read_graphml}


# ---- graphs that are made

def hierarchy(routers, seed, peers):
    """A hierarchy: up to three routers at the top are peers, each other one has one provider or two above it, and
    `peers` more links are between peers. It depends on the seed alone, since `random()` is the same in every Python."""
    draw = random.Random(seed)
    graph, links = Graph(), {}

    def chosen(among):
        return among[int(draw.random() * len(among))]

    def join(one, other, kind):
        graph.add(one, other, kind)
        for end in (one, other):
            links[end] = links.get(end, 0) + 1

    graph.lines = {router: "" for router in range(1, routers + 1)}
    for router in range(2, routers + 1):
        if router <= 3:
            for other in range(1, router):
                join(other, router, PEER)
            continue
        above = [other for other in range(1, max(2, 2 * router // 3)) if links.get(other, 0) < MOST_LINKS]
        for _ in range(1 + (draw.random() < 0.5)):
            provider = chosen(above)
            if (provider, router) not in graph.kinds:
                join(provider, router, CUSTOMER)
    for _ in range(peers):
        one, other = sorted((1 + int(draw.random() * routers), 1 + int(draw.random() * routers)))
        if 3 < one < other and (one, other) not in graph.kinds and max(links[one], links[other]) < MOST_LINKS:
            join(one, other, PEER)
    return graph


# ---- networks

def check_limits(graph):
    """Refuses what no network may be."""
    routers, peers = graph.routers, graph.peers()
    if not routers:
        raise Refusal("a graph without routers")
    if len(routers) > MOST_ROUTERS:
        raise Refusal(f"{len(routers)} routers, and a network has at most {MOST_ROUTERS}: {PART}")
    for router in routers:
        place = f"{graph.lines[router]}: " if graph.lines[router] else ""
        if router > GREATEST_ASN:
            raise Refusal(f"{place}AS {router} is above {GREATEST_ASN}")
        if len(peers[router]) > MOST_LINKS:
            links = len(peers[router])
            raise Refusal(f"{place}{router} has {links} links, and a router has at most {MOST_LINKS}: {PART}")
    reached = texts.distances(peers, routers[0])
    apart = [router for router in routers if router not in reached]
    if apart:
        raise Refusal(f"the network isn't connected: no links lead from {routers[0]} to {apart[0]}")


def from_below(graph, peers):
    """The routers, each behind its customers."""
    customers = {router: [peer for peer in own if graph.kinds[router, peer] == CUSTOMER]
                 for router, own in peers.items()}
    try:
        return list(graphlib.TopologicalSorter(customers).static_order())
    except graphlib.CycleError as why:
        circle = ", ".join(map(str, sorted(set(why.args[1]))))
        raise Refusal(f"{circle}: among these, providers are customers of their customers") from None


class Wishes:
    """What is asked of links beside their relations: those that are backups, as sets of two routers, and how often more
    a router has its number in what it tells another."""

    def __init__(self, backups=(), prepends=None):
        self.backups, self.prepends = frozenset(map(frozenset, backups)), prepends or {}

    def is_backup(self, one, other):
        return frozenset((one, other)) in self.backups

    def length(self, path):
        """The length of a path, as its first router sees it."""
        return len(path) + sum(self.prepends.get((teller, told), 0) for told, teller in zip(path, path[1:]))

    def comments(self, one, other):
        if self.is_backup(one, other):
            yield f"# {one} and {other} like this link least: it is a backup"
        for teller, told in ((one, other), (other, one)):
            if (teller, told) in self.prepends:
                yield f"# {teller} tells {told} its number {self.prepends[teller, told]} times more"


def gao_rexford(graph, origin, wishes=None):
    """The best paths of each router to an origin, by kind, length and numbers, and how many routers had more."""
    peers, wishes = graph.peers(), wishes or Wishes()
    order, longer = from_below(graph, peers), set()

    def extended(router, kind, paths):
        """The paths of a router through its peers of a kind."""
        found = [(router,) + path for peer in peers[router] if graph.kinds[router, peer] == kind for path in paths[peer]
                 if router not in path and len(path) < LONGEST_PATH]
        return best(router, found)

    def best(router, paths):
        paths.sort(key=lambda path: (wishes.is_backup(*path[:2]), graph.kinds[router, path[1]], wishes.length(path),
                                     path))
        if len(paths) > MOST_PATHS:
            longer.add(router)
        return paths[:MOST_PATHS]

    own = {}  # of the origin, or through a customer: these are told to every peer
    for router in order:
        own[router] = [(origin,)] if router == origin else extended(router, CUSTOMER, own)
    paths = {}
    for router in reversed(order):
        paths[router] = own[router] if router == origin else best(
            router, own[router] + extended(router, PEER, own) + extended(router, PROVIDER, paths))
    return paths, len(longer)


def link_comments(graph, one, other, wishes):
    """What is said of a link above it."""
    kind = graph.kinds[one, other]
    if kind == CUSTOMER:
        yield f"# {other} customer of {one}"
    elif kind == PEER:
        yield f"# {other} peer of {one}"
    yield from wishes.comments(one, other)


def network_lines(graph, origins, rules, wishes=None):
    """The lines of a network, its comments first."""
    wishes = wishes or Wishes()
    routers = graph.routers
    lines = ["asn 4"] if routers[-1] > GREATEST_OF_TWO_OCTETS else []
    lines += [f"router {router} 10.0.0.{place}" for place, router in enumerate(routers, 1)]
    for one, other in graph.links():
        lines += [*link_comments(graph, one, other, wishes), f"link {one} {other}"]
    prefixes = {origin: f"10.{place}.0.0/16" for place, origin in enumerate(origins, 1)}
    lines += [f"origin {origin} {prefix}" for origin, prefix in prefixes.items()]
    cut = 0
    for origin, prefix in prefixes.items():
        if rules == "gao-rexford":
            paths, longer = gao_rexford(graph, origin, wishes)
            cut += longer
            lines += [f"rank {router} {prefix} {' '.join(map(path_text, paths[router]))}".rstrip()
                      for router in routers if router != origin]
    comments = [f"router {router} is {label}" for router, label in graph.labels.items()] + graph.comments
    if cut:
        comments.append(f"{cut} rules stand for more paths: the best {MOST_PATHS} are there")
    return [f"# {comment}" for comment in comments] + lines


def schedule_lines(network, rounds, order):
    """The lines of a schedule. With an order the sessions, and then the prefixes, come as a seed says."""
    draw = None if order is None else random.Random(order)
    return ["schedule", *texts.usual_orders(network, rounds, LATER, draw)]


# ---- words

def origins_of(word, graph):
    """The origins that a word names; without it the greatest router."""
    if word is None:
        return graph.routers[-1:]
    origins = []
    for number in word.split(","):
        if not (number.isascii() and number.isdigit()) or len(number) > 10 or int(number) not in graph.lines:
            raise Refusal(f"there is no AS {number} to be an origin")
        if int(number) in origins:
            raise Refusal(f"{number} is an origin twice")
        origins.append(int(number))
    return origins


# How a link is written, and how often a number stands in what is told over it.
LINK, PREPENDED = re.compile(r"(\d{1,10})-(\d{1,10})"), re.compile(r"(\d{1,10})-(\d{1,10}):([1-9]|1\d)")


def links_of(words, form, graph):
    """The links that words name, separated by commas: of each its numbers, the routers first."""
    for word in words.split(",") if words else ():
        found = form.fullmatch(word)
        numbers = tuple(map(int, found.groups())) if found else ()
        if not found or numbers[:2] not in graph.kinds:
            raise Refusal(f"there is no link {word}: a link is written as U-V, a prepend as U-V:N with N from 1 to 19")
        yield numbers


def graph_of(asked):
    """The graph that the words ask for."""
    if asked.routers:
        seed = 1 if asked.seed is None else asked.seed
        return hierarchy(asked.routers, seed, asked.routers // 3 if asked.peers is None else asked.peers)
    octets = read_octets(asked.file)
    try:
        text = octets if asked.form == "graphml" else octets.decode("utf-8-sig")
    except UnicodeDecodeError as why:
        raise Refusal(f"{asked.file}:{octets.count(10, 0, why.start) + 1}: not UTF-8")
    graph = READERS[asked.form](text, asked.file)
    if asked.keep:
        graph = graph.part(asked.around, asked.keep)
    return graph


@tool
def main():
    words = Words(__doc__)
    words.add_argument("file", metavar="FILE", nargs="?", default="-", help="the graph (the standard input, as -)")
    words.add_argument("--from", dest="form", choices=[*READERS, "network"], help="what FILE is")
    words.add_argument("--routers", type=count(1, MOST_ROUTERS), metavar="N", help="make a hierarchy of N routers")
    words.add_argument("--seed", type=count(0, 2**32), metavar="N", help="the seed of the hierarchy (1)")
    words.add_argument("--peers", type=count(0, 1000), metavar="N", help="links between peers to try (a third of N)")
    words.add_argument("--origin", metavar="AS,AS,..", help="the routers that originate a prefix (the greatest)")
    words.add_argument("--rules", choices=RULES, help="gao-rexford where relations are known, else shortest")
    words.add_argument("--backup", metavar="U-V,..", help="links that their ends like least")
    words.add_argument("--prepend", metavar="U-V:N,..", help="U tells V its number N times more")
    words.add_argument("--around", type=count(1, 2**32 - 1), metavar="AS", help="with --keep: the router in the middle")
    words.add_argument("--keep", type=count(1, MOST_ROUTERS), metavar="N", help="take the N routers nearest to AS")
    words.add_argument("--rounds", type=count(1, 10**6), default=1000, metavar="N", help="before the snapshot (1000)")
    words.add_argument("--order", type=count(0, 2**32), metavar="N", help="start sessions in the order of this seed")
    words.add_argument("--network", action="store_true", help="write no schedule, as for `bgpnet run` and tools/settle")
    asked = words.parse_args()
    if bool(asked.form) == bool(asked.routers):
        words.error("either --from or --routers is to be given")
    if bool(asked.around) != bool(asked.keep):
        words.error("--around and --keep are given together")
    if asked.routers and (asked.keep or asked.file != "-"):
        words.error("FILE, --around and --keep are of --from")
    if asked.form and (asked.seed is not None or asked.peers is not None):
        words.error("--seed and --peers are of --routers")
    if asked.form == "network":
        if asked.origin or asked.rules or asked.keep or asked.backup or asked.prepend:
            words.error("a network has its origins, its rules and its routers")
        text = read_octets(asked.file).decode("latin-1")
        network, section, _ = texts.read_network(Program(asked.program), text, asked.file)
        lines = texts.parts_of(text)[0][:-1 if section else None]
    else:
        graph = graph_of(asked)
        check_limits(graph)
        related = None not in graph.kinds.values()
        rules = asked.rules or ("gao-rexford" if related else "shortest")
        if rules == "gao-rexford" and not related:
            raise Refusal(f"{asked.file}: it doesn't say who is whose provider, as gao-rexford needs: --rules shortest")
        if rules != "gao-rexford" and (asked.backup or asked.prepend):
            raise Refusal("--backup and --prepend are of the rules gao-rexford, for which it has to be known who is "
                          "whose provider")
        prepends = {(one, other): number for one, other, number in links_of(asked.prepend, PREPENDED, graph)}
        wishes = Wishes(links_of(asked.backup, LINK, graph), prepends)
        lines = network_lines(graph, origins_of(asked.origin, graph), rules, wishes)
        network = Network(lines)
    while lines and not lines[-1].strip():
        lines.pop()
    if not asked.network:
        lines = lines + schedule_lines(network, asked.rounds, asked.order)
    text = "".join(line.rstrip("\r") + "\n" for line in lines)
    sys.stdout.buffer.write(text.encode("latin-1" if asked.form == "network" else "utf-8"))
