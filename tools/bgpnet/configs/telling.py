"""What is said of a set of configurations beside its network: why a path stands where it does, what a change does, and
what ends there are."""
import itertools
import os
import random
import re

from bgpnet.configs.communities import community_text, large_text
from bgpnet.configs.ends import Judge
from bgpnet.configs.forwarding import Forwarding
from bgpnet.configs.places import Place, refusal
from bgpnet.configs.ranks import Ranks, network_lines, schedule_lines
from bgpnet.configs.routes import ORIGINS, Denial
from bgpnet.configs.sessions import dotted
from bgpnet.configs.showing import ending, inside_attributes, path_words, reported, with_steps
from bgpnet.configs.syntax import number_of, prefix_of
from bgpnet.network import MOST_PATHS, Named, Prefix, lines_text, numbered, read_path, routes_of, telling
from bgpnet.program import Refusal, grouped
from bgpnet.reports import is_json, read_report

# Orders of ties that are played for a prefix, at most.
MOST_ORDERS = 64

# How a path is written.
PATH = re.compile(r"none|\d{1,10}(-\d{1,10})*")


class Names:
    """Short names of files, as long as they tell them apart; of others the whole names."""

    def __init__(self, names):
        short = [os.path.basename(name) for name in names]
        self.short = {} if len(set(short)) < len(short) else dict(zip(names, short))
        self.folders = {os.path.dirname(name) for name in self.short}

    def of(self, text):
        """A text that begins with a place, with the short name. A file that another includes stands beside it, or is
        named in whole."""
        text = str(text)
        name, colon, rest = text.partition(":")
        folder, own = os.path.split(name)
        if len(self.folders) == 1 and folder in self.folders:
            return own + colon + rest
        return self.short.get(name, name) + colon + rest


def attributes_of(router, way, names):
    """The attributes of a way that policy gave, or that are compared, each a text and the line that it comes by."""
    route, found = way.route, []
    preference, default = router.preference(route)
    found += route.above()
    found.append(("local-pref", f"local-pref {preference}"))
    found.append(("path", f"length {len(route.path) + 1}" if router.reach is None else path_words(route)))
    if route.origin:
        found.append(("origin", f"origin {ORIGINS[route.origin]}"))
    if route.has_med and (len(way.path) > 1 or route.med):
        found.append(("med", f"med {route.med}"))
    if route.communities:
        found.append(("communities", "community " + " ".join(map(community_text, route.communities))))
    if route.large:
        found.append(("large", "large-community " + " ".join(map(large_text, route.large))))
    if router.reach is not None:
        found += inside_attributes(route)
    notes = route.notes or {}
    notes = dict(notes, **{"local-pref": default} if default else {})
    return [(name, said + (f" ({', '.join(map(names.of, notes[name]))})" if notes.get(name) else ""))
            for name, said in found]


def columns(rows):
    """Rows of cells as lines, cells of a column under one another."""
    widths = {}
    for row in rows:
        for at, cell in enumerate(row[:-1]):
            widths[at] = max(widths.get(at, 0), len(cell))
    return ["  ".join([cell.ljust(widths.get(at, 0)) for at, cell in enumerate(row[:-1])] + row[-1:]).rstrip()
            for row in rows]


def explain(ranks, word, prefix, names):
    """The lines that say of a router, by its number or its host's name, and a prefix which paths it permits, by which
    lines, and which it does not."""
    asn = next((asn for asn, name in ranks.set.called.items() if name == word), number_of(word))
    if asn not in ranks.set.routers:
        raise Refusal(f"there is no router {word}")
    order, router = ranks.orders[prefix][asn], ranks.set.routers[asn]
    tied = {path: place for place, tie in enumerate(order.ties, 1) for path in tie.tied()}
    rows = []
    for place, way in enumerate(order.ways, 1):
        said = attributes_of(router, way, names)
        at = next(at for at, (name, _) in enumerate(said) if name == "path")
        before, rest = "  ".join(text for _, text in said[:at]), [text for _, text in said[at + 1:]]
        if way.path in tied and router.reach is not None:
            rest.append(f"tie {tied[way.path]}")
        elif way.path in tied:
            peer = ranks.set.routers[way.path[1]]
            rest.append(f"tie {tied[way.path]}: router id {dotted(peer.router_id.name)}")
        rows.append([str(place), ranks.set.path_text(way.path), before, "  ".join([said[at][1], *rest])])
    lines = columns(rows)
    if router.reach is not None:
        lines = with_steps(ranks.set, order, lines)
    rows = [["denied", ranks.set.path_text(path), f"{names.of(denial.place)} {denial.why}"]
            for path, denial in ranks.follower.denials[prefix].items() if path[0] == asn and asn not in path[1:]]
    return lines + columns(rows) or ["nothing comes here"]


# ---- ends

def play(program, ranks, most=None):
    """Whether the program settles, and the routes in which it ends, by router and prefix."""
    lines = network_lines(ranks, most)[0]
    said = program.answer(["play"], lines_text(lines + schedule_lines(lines)), "the network")
    return said[0].endswith("settled"), routes_of(said[said.index("now") + 1:])


def read_routes(routers, text, name):
    """The paths of `route` and `path` lines, as `play` prints them, by router and prefix; refuses what is none of them,
    and what is not of these configurations. What FRR prints as JSON is taken too."""
    origins, found = routers.origins(), {}
    if is_json(text):
        is_inside = next(iter(routers.routers.values())).reach is not None
        told = reported(routers, text, name) if is_inside else read_report(text, name)
        rows = ((name, *route) for route in told.items())
    else:
        rows = (row for number, words in numbered(text.split("\n")) for row in rows_of(Place(name, number), words))
    for place, (asn, said), path in rows:
        prefix = Prefix.read(str(said))
        if asn not in routers.routers:
            raise refusal(place, f"these configurations have no router {asn}")
        if prefix not in origins:
            raise refusal(place, f"no router announces {said}")
        found[asn, prefix] = path
    if not found:
        raise Refusal(f"{name}: no routes" + ", as `play` prints them" * (not is_json(text)))
    return found


def rows_of(place, words):
    """The route of a line of `play`, with its place, if it has one."""
    if words[0] in ("route", "path"):
        if len(words) != 4 or None in (number_of(words[1]), prefix_of(words[2]), PATH.fullmatch(words[3])):
            raise refusal(place, f"'{' '.join(words)}' is no line 'route ROUTER PREFIX PATH'")
        yield place, (int(words[1]), words[2]), read_path(words[3])


def verify(routers, routes, chosen=None):
    """Of each router and prefix whether it has the best of what its peers offer, by the configurations, and a line that
    says so."""
    origins = routers.origins()
    for prefix in chosen or ():
        if prefix not in origins:
            raise Refusal(f"no router announces {prefix}")
    for prefix, (router, network) in origins.items():
        if chosen and prefix not in chosen:
            continue
        judge = Judge(routers, prefix, router, network)
        paths = {asn: routes.get((asn, prefix), ()) for asn in routers.routers}
        forwarding = Forwarding(routers, judge, paths)
        for asn, path in paths.items():
            if routers.routers[asn].is_origins:
                continue
            best, of, text = judge.best(asn, paths), f"{routers.label(asn)} {prefix}", routers.path_label
            if judge.may_keep(asn, path, paths):
                tie = f", a tie with {text(best)}" if path != best else ""
                is_inside = path and routers.routers[asn].reach is not None
                yield True, f"best {of} {text(path)}{tie}" + (
                    ending(routers.routers[asn], judge.route(path)) + forwarding.said(asn) if is_inside else "")
            else:
                yield False, f"unstable {of} has {text(path)} best {text(best)}{obstacle(judge, path, paths)}"


def obstacle(judge, path, paths):
    """Why a router can't have a path, or nothing."""
    route = judge.route(path) if path else None
    if isinstance(route, Denial):
        return f": denied by {route.place} {route.why}"
    return ": no peer has the rest of it" if len(path) > 1 and paths.get(path[1]) != path[1:] else ""


def orders_of(ties, draw):
    """Orders of ties, for each of them a tuple of its blocks: all of them, or some where there are too many; and
    whether there are more."""
    choices = [list(itertools.islice(tie.orders(), MOST_ORDERS + 1)) if len(tie.paths) <= MOST_PATHS else None
               for tie in ties]
    if None not in choices:
        choices = [choice + tie.outlasting() for choice, tie in zip(choices, ties)]
        found = list(itertools.islice(itertools.product(*choices), MOST_ORDERS + 1))
        if len(found) <= MOST_ORDERS:
            return found, False
    plain = tuple(tuple(tie.blocks) for tie in ties)
    found = {plain: None}
    for at, tie in enumerate(ties):
        for block in tie.blocks[1:]:
            found.setdefault(plain[:at] + (tie.nearest(tie.first(block)),) + plain[at + 1:])
        for order in tie.outlasting():
            found.setdefault(plain[:at] + (order,) + plain[at + 1:])
    for _ in range(MOST_ORDERS):
        found.setdefault(tuple(tie.nearest(shuffled(tie.blocks, draw)) for tie in ties))
    return list(found)[:MOST_ORDERS], True


def shuffled(blocks, draw):
    """Blocks in a random order, the same in every Python."""
    return [block for _, block in sorted((draw.random(), block) for block in blocks)]


def reordered(paths, ties, orders):
    """A router's paths with those of each tie in another order, on the places of the tie."""
    paths = list(paths)
    for tie, order in zip(ties, orders):
        own = [path for block in order for path in block]
        for place, path in zip([at for at, path in enumerate(paths) if path in tie.kind], own):
            paths[place] = path
    return paths


def tie_ends(program, ranks, prefix, most=None):
    """The lines that say in which ends a prefix ends by the orders of its ties. An order against metrics counts where
    its end is one by the configurations."""
    orders = ranks.orders[prefix]
    places = [(asn, tie) for asn, order in orders.items() for tie in order.ties]
    tried, are_more = orders_of([tie for _, tie in places], random.Random(1))
    judge, ends = Judge(ranks.set, prefix, *ranks.set.origins()[prefix]), {}
    for order in tried:
        is_settled, routes = play(program, Reordered(ranks, prefix, places, order), most)
        chosen = {asn: routes[asn, prefix] for asn in orders}
        if all(tie.allows(one) for (_, tie), one in zip(places, order)) or \
                is_settled and all(judge.may_keep(asn, path, chosen) for asn, path in chosen.items()):
            key = " ".join(["settled" if is_settled else "moving", *map(ranks.set.path_text, chosen.values())])
            ends[key] = ends.get(key, 0) + 1
    yield f"  ties: {len(places)}, orders played: {sum(ends.values())}{', and there are more' * are_more}"
    for said, count in sorted(ends.items(), key=lambda end: -end[1]):
        yield f"  {count:3}  {said}"


def all_tie_ends(program, ranks, most=None):
    """The same of every prefix; those that go alike are played once."""
    known = {}
    for prefix, origin in ranks.origins.items():
        key = id(ranks.orders[prefix])
        if key not in known:
            known[key] = list(tie_ends(program, ranks, prefix, most))
        yield f"prefix {prefix} of {ranks.set.name_of(origin)}"
        yield from known[key]


class Reordered:
    """Ranks of one prefix, with ties in another order."""

    def __init__(self, ranks, prefix, places, order):
        self.set, self.origins, self.ranks = ranks.set, {prefix: ranks.origins[prefix]}, ranks
        self.places, self.order = places, order

    def paths(self, prefix):
        paths = self.ranks.paths(prefix)
        for asn in paths:
            own = [at for at, (router, _) in enumerate(self.places) if router == asn]
            paths[asn] = reordered(paths[asn], [self.places[at][1] for at in own], [self.order[at] for at in own])
        return paths


# ---- what a change does

class Change:
    """Two sets of configurations, and what is other in the second."""

    def __init__(self, program, old, new, most=None, chosen=()):
        for prefix in chosen:
            if prefix not in {**old.origins(), **new.origins()}:
                raise Refusal(f"no router announces {prefix}")
        self.sides = [Ranks(routers, [one for one in chosen if one in routers.origins()] if chosen else None, True)
                      for routers in (old, new)]
        self.names, self.both = [Names([]), Names([])], Named()
        self.both.called = telling({asn: router.host for routers in (old, new)
                                    for asn, router in routers.routers.items() if router.host})
        self.ends = [play(program, ranks, most) for ranks in self.sides]

    def lines(self):
        """What changes, line by line; prefixes of which a router's lines are the same stand in one."""
        found, alike = [], {}
        old, new = self.sides
        for asn in sorted(set(old.set.routers) ^ set(new.set.routers)):
            found.append(f"{self.both.router_text(asn)} is {'gone' if asn in old.set.routers else 'new'}")
        for prefix in sorted(set(old.origins) | set(new.origins)):
            ends = [ranks.origins.get(prefix) for ranks in self.sides]
            if ends[0] != ends[1]:
                found.append(f"{prefix} is announced by {ends[1] or 'none'}, was by {ends[0] or 'none'}")
            for asn in sorted(set(old.set.routers) & set(new.set.routers)):
                more = self.router_lines(asn, prefix)
                if more:
                    alike.setdefault((asn, *more), []).append(prefix)
        for (asn, *more), prefixes in alike.items():
            found += [f"{self.both.router_text(asn)} {', '.join(map(str, prefixes))}"] + more
        return found + self.end_lines()

    def ways(self, at, asn, prefix):
        orders = self.sides[at].orders.get(prefix)
        return {way.path: (place, way) for place, way in enumerate(orders[asn].ways, 1)} if orders else {}

    def why(self, at, path, prefix):
        """Why a side has not a path: it is denied here, or on its way."""
        denials = self.sides[at].follower.denials.get(prefix, {})
        denied = next((path[cut:] for cut in reversed(range(len(path))) if path[cut:] in denials), None)
        if denied is None:
            return ": it does not come here"
        where = "" if denied == path else f" at {self.both.name_of(denied[0])}"
        return f": denied{where} by {denials[denied].place} {denials[denied].why}"

    def router_lines(self, asn, prefix):
        old, new = self.ways(0, asn, prefix), self.ways(1, asn, prefix)
        found = []
        for path, (place, way) in new.items():
            if path not in old:
                said = ", ".join(text for _, text in attributes_of(self.sides[1].set.routers[asn], way, self.names[1]))
                found.append(f"  + {place} {self.both.path_text(path)}  {said}; before{self.why(0, path, prefix)}")
        for path, (place, way) in old.items():
            if path not in new:
                found.append(f"  - {place} {self.both.path_text(path)}{self.why(1, path, prefix)}")
        kept = [[path for path in side if path in old and path in new] for side in (old, new)]
        for path in kept[1]:
            said = [dict(attributes_of(self.sides[at].set.routers[asn], side[path][1], self.names[at]))
                    for at, side in ((0, old), (1, new))]
            values = [[text.split(" (")[0] for text in one.values()] for one in said]
            is_moved = kept[0].index(path) != kept[1].index(path)
            if values[0] != values[1]:
                what = [f"{said[1].get(name, 'no ' + name)}, was {said[0].get(name, 'none')}"
                        for name in {**said[0], **said[1]}
                        if said[0].get(name, "").split(" (")[0] != said[1].get(name, "").split(" (")[0]]
                found.append(f"  = {new[path][0]} (was {old[path][0]}) {self.both.path_text(path)}  {'; '.join(what)}")
            elif is_moved:
                found.append(f"  = {new[path][0]} (was {old[path][0]}) {self.both.path_text(path)}")
        return found

    def end_lines(self):
        (was_settled, before), (is_settled, after) = self.ends
        found = []
        if was_settled != is_settled:
            found.append("the network settles no more" if was_settled else "the network settles now")
        keys = sorted(set(before) | set(after), key=lambda key: (key[1], key[0]))
        alike = grouped(((asn, after.get((asn, prefix), ()), before.get((asn, prefix), ())), prefix)
                        for asn, prefix in keys if before.get((asn, prefix)) != after.get((asn, prefix)))
        return found + [f"end {self.both.router_text(asn)} {', '.join(map(str, prefixes))} {self.both.path_text(new)}, "
                        f"was {self.both.path_text(old)}" for (asn, new, old), prefixes in alike.items()]
