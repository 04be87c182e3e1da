"""Where everything stands in pictures of networks: routers, the ways of links, and texts.

Places are reckoned by sums, products, quotients and square roots alone, so that a picture is the same on every
machine."""
from __future__ import annotations

import math
from dataclasses import dataclass, field
from typing import Collection, Dict, Iterable, Iterator, Mapping, Optional, Sequence, Tuple

from bgpnet.network import Ends, Link, Network, Path, Prefix
from bgpnet.playing import Move
from bgpnet.program import grouped

Point = Tuple[float, float]
# The ends of a link's way and, between them, the point that it bends to.
Curve = Tuple[Point, Point, Point]
# The left, top, right and bottom of something.
Box = Tuple[float, float, float, float]
Side = Tuple[int, int]
Spots = Dict[int, Point]
# What is written, and its class; and a caption, with whether it is good, None for neither.
Text = Tuple[str, str]
Caption = Tuple[str, Optional[bool]]

RADIUS = 18
LINK, LONG_LINK = 110, 150  # between two peers, as far as the others let them; in larger networks
MARGIN, LEAST_WIDTH = 16, 260
TITLE, LINE, LETTER, BOLD, SMALL_LETTER = 40, 15, 7.4, 8.5, 5.6
# How far from the middle of a router its texts stand, outside its rings, and how near to it no other's link comes.
BESIDE, CLEAR = RADIUS + 13, RADIUS + 7
# The places of a router's texts, as sides to the right and down, the ones that are tried first in front; how far from a
# text no link and no arrow beside it may pass; and what it costs to cover a router, another text, a point of a link.
SIDES = ((1, 0), (-1, 0), (0, -1), (0, 1), (1, -1), (-1, -1), (1, 1), (-1, 1))
OFF, OVER_ROUTER, OVER_TEXT, OVER_LINK = 7, 60, 25, 1
# What a slide is as wide and high as, and how many letters of a legend a sample is as wide as.
SLIDE = 16 / 9
# How far a link bends to keep clear of routers: the first of these that does.
BENDS = (0, 30, -30, 50, -50, 75, -75, 105, -105)
# In larger networks rules are not written out; a browser shows that of the router under the pointer.
MOST_WITH_RULES = 12
MOST_PATHS_SHOWN = 5
STEPS = 150
# How near two routers may come, where peers stand 1 apart.
LEAST_APART = 0.5


# ---- where routers stand

def around(at: int, number: int) -> Point:
    """The place of one of a number of points on a square that stands on a corner, 1 from its middle."""
    side, rest = divmod(4 * at, number)
    along = rest / number
    return ((along, along - 1), (1 - along, along), (-along, 1 - along), (along - 1, -along))[side]


def layers(network: Network) -> dict[int, int] | None:
    """The layer of each router by relations, that of one without providers 0: a customer stands below each provider.
    None where no comment says who is whose customer, or some are in a circle."""
    providers: dict[int, list[int]] = {router: [] for router in network.routers}
    for (one, other), relation in network.relations.items():
        if relation == "provider" and one in providers and other in providers:
            providers[one].append(other)
    layer = {router: 0 for router in network.routers}
    for _ in network.routers:
        below = {router: max((layer[one] + 1 for one in own), default=0) for router, own in providers.items()}
        if below == layer:
            return layer if any(providers.values()) else None
        layer = below
    return None


def places(network: Network, origin: int) -> Spots:
    """Where each router stands: where a comment puts it; else in the layer that relations give it; else with the origin
    below: as far apart as links lead, as well as can be (stress majorization, Gansner, Koren and North 2004), from
    squares around the origin on."""
    routers, fixed, heights = network.routers, network.places, layers(network)
    if len(routers) == 1:
        return {origin: (0.0, 0.0)}
    apart = {router: network.distances(router) for router in routers}
    spots: Spots = {origin: (0.01, 0.02)}
    levels = grouped((apart[origin][router], router) for router in routers)
    for level, own in levels.items():
        for at, router in enumerate(own) if level else ():
            x, y = around(at * 100 + 37 * level, len(own) * 100 + 37 * level)
            spots[router] = (x * level, y * level)
    pulls = {one: [(other, length, 1 / length**2) for other, length in apart[one].items() if length] for one in routers}
    whole = {one: sum(pull for _, _, pull in pulls[one]) for one in routers}
    for _ in range(STEPS):
        spots = {one: pulled(spots, one, pulls[one], whole[one]) for one in routers}
        if fixed:
            spots.update(fixed)
        elif heights:
            spots = {one: (x, heights[one]) for one, (x, _) in spots.items()}
    if fixed:
        return spots
    return rowed(spots) if heights else turned(pushed_apart(spots), origin)


def rowed(spots: Spots) -> Spots:
    """The places of routers in rows, those of one row at least a step apart, around the middle that they had."""
    for y, row in grouped((y, (x, router)) for router, (x, y) in spots.items()).items():
        row.sort()
        xs: list[float] = []
        middle = sum(x for x, _ in row) / len(row)
        for x, _ in row:
            xs.append(max(x, xs[-1] + 0.9) if xs else x)
        away = middle - sum(xs) / len(xs)
        for x, (_, router) in zip(xs, row):
            spots[router] = x + away, y
    return spots


def pulled(spots: Spots, one: int, pulls: Iterable[tuple[int, int, float]], whole: float) -> Point:
    """Where the others want a router to stand."""
    x, y = spots[one]
    to_x = to_y = 0.0
    for other, length, pull in pulls:
        other_x, other_y = spots[other]
        away_x, away_y = x - other_x, y - other_y
        stretch = length / (math.sqrt(away_x * away_x + away_y * away_y) or 0.001)
        to_x += pull * (other_x + stretch * away_x)
        to_y += pull * (other_y + stretch * away_y)
    return to_x / whole, to_y / whole


def pushed_apart(spots: Spots) -> Spots:
    """The places, those that are too near to each other pushed apart."""
    routers, spots = list(spots), dict(spots)
    for _ in range(STEPS):
        is_moved = False
        for at, one in enumerate(routers):
            for other in routers[:at]:
                away_x, away_y = spots[one][0] - spots[other][0], spots[one][1] - spots[other][1]
                length = math.sqrt(away_x * away_x + away_y * away_y)
                if length < LEAST_APART - 0.01:
                    push = (LEAST_APART - length) / 2 / length if length else 0
                    push_x, push_y = (away_x * push, away_y * push) if length else (LEAST_APART / 2, 0.01 * at)
                    spots[one] = spots[one][0] + push_x, spots[one][1] + push_y
                    spots[other] = spots[other][0] - push_x, spots[other][1] - push_y
                    is_moved = True
        if not is_moved:
            break
    return spots


def turned(spots: Spots, origin: int) -> Spots:
    """The places, turned around their middle so that the origin stands below it."""
    middle_x = sum(x for x, _ in spots.values()) / len(spots)
    middle_y = sum(y for _, y in spots.values()) / len(spots)
    down_x, down_y = spots[origin][0] - middle_x, spots[origin][1] - middle_y
    length = math.sqrt(down_x * down_x + down_y * down_y)
    if length < 0.05:
        return spots
    down_x, down_y = down_x / length, down_y / length
    centred = {router: (x - middle_x, y - middle_y) for router, (x, y) in spots.items()}
    return {router: (x * down_y - y * down_x, x * down_x + y * down_y) for router, (x, y) in centred.items()}


# ---- what is drawn

@dataclass(frozen=True)
class Drawn:
    """What a picture shows of a network beside its routers and links: for one prefix the routes of the routers that
    have one, those that would move, each with the path that it has and its best one, links whose session is down,
    routers to be marked, a title, and captions, each with whether it is good, None for neither; links over which
    nothing came for some seconds; and whether rules are written out."""

    prefix: Prefix | None
    routes: Mapping[int, Path] = field(default_factory=dict)
    unstable: Sequence[Move] = ()
    broken: Collection[Ends] = ()
    changed: Collection[int] = ()
    title: str = ""
    captions: Sequence[Caption] = ()
    silent: Mapping[Ends, int] = field(default_factory=dict)
    rules: bool = True

    @property
    def wanted(self) -> dict[int, Path]:
        """The best path of each router that would move."""
        return {router: best for router, _, best in self.unstable}

    def origin(self, network: Network) -> int | None:
        """The origin of the prefix, None where none is drawn."""
        return None if self.prefix is None else network.origins[self.prefix]

    def wants(self, router: int, path: Path) -> bool:
        """Whether an unstable router would take this path."""
        return self.wanted.get(router) == path


def rule_texts(network: Network, router: int, drawn: Drawn) -> list[Text]:
    """What is written beside a router, each with its class: the paths of its rule, or its route alone."""
    if len(network.routers) > MOST_WITH_RULES or not drawn.rules:
        return []
    route = drawn.routes.get(router)
    ranked = network.ranked(router, drawn.prefix) if drawn.prefix else None
    if router == drawn.origin(network):
        return [(str(drawn.prefix), "")]
    if ranked is None:
        return [(network.path_text(route), "kept")] if route else []
    texts: list[Text] = []
    for path in ranked:
        kind = "kept" if path == route else "best" if drawn.wants(router, path) else ""
        texts.append((network.path_text(path) + " best" * (kind == "best"), kind))
    if len(texts) > MOST_PATHS_SHOWN:
        texts[MOST_PATHS_SHOWN - 1:] = [("..", "")]
    return texts or [("no path", "")]


def along(curve: Curve, part: float) -> Point:
    """The point of a curve, which is its ends and between them a point that it bends to."""
    (x, y), (bend_x, bend_y), (to_x, to_y) = curve
    rest = 1 - part
    return (rest * rest * x + 2 * rest * part * bend_x + part * part * to_x,
            rest * rest * y + 2 * rest * part * bend_y + part * part * to_y)


def part_of(curve: Curve, begin: float, end: float) -> Curve:
    """The part of a curve from one point of it to another."""
    def between(first: float, second: float) -> Point:
        (x, y), (bend_x, bend_y), (to_x, to_y) = curve
        one, other, third = (1 - first) * (1 - second), (1 - first) * second + first * (1 - second), first * second
        return one * x + other * bend_x + third * to_x, one * y + other * bend_y + third * to_y

    return between(begin, begin), between(begin, end), between(end, end)


def distance(one: Point, other: Point) -> float:
    return math.sqrt((one[0] - other[0]) ** 2 + (one[1] - other[1]) ** 2)


class Texts:
    """The texts beside a router, in one picture or several: as wide and high as the greatest of them."""

    def __init__(self, pictures: Sequence[Sequence[Text]]) -> None:
        self.width = LETTER * max((len(text) for texts in pictures for text, _ in texts), default=0)
        self.height = LINE * max(map(len, pictures), default=0)

    def box(self, spot: Point, side: Side) -> Box:
        """The left, top, right and bottom of the texts of a router that stands here."""
        (x, y), (right, down) = spot, side
        if not right:
            left = x - self.width / 2
        else:
            near = BESIDE if not down else BESIDE - 10
            left = x + near if right > 0 else x - near - self.width
        top = y - self.height / 2 if not down else y + BESIDE - 5 if down > 0 else y - BESIDE + 5 - self.height
        return left, top, left + self.width, top + self.height


def is_inside(point: Point, box: Box, more: float = 0) -> bool:
    (x, y), (left, top, right, bottom) = point, box
    return left - more < x < right + more and top - more < y < bottom + more


def common(one: Box, other: Box) -> float:
    """How much two boxes have in common."""
    width = min(one[2], other[2]) - max(one[0], other[0])
    height = min(one[3], other[3]) - max(one[1], other[1])
    return width * height if width > 0 and height > 0 else 0


class Layout:
    """Where everything stands in pictures of one network that show this and that: the routers, the side of each on
    which its texts stand, the way of each link around the other routers, and the size."""

    def __init__(self, network: Network, spots: Spots, drawns: Sequence[Drawn]) -> None:
        self.network, self.drawns = network, drawns
        self.texts = {router: Texts([rule_texts(network, router, drawn) for drawn in drawns])
                      for router in network.routers}
        link = LINK if len(spots) <= MOST_WITH_RULES else LONG_LINK
        self.spots = {router: (x * link, y * link) for router, (x, y) in spots.items()}
        curves = [self.bent(ends) for ends in network.links]
        self.sides = {router: (1, 0) for router in network.routers}
        boxes = self.choose_sides(curves)
        self.place(curves, boxes)

    def place(self, curves: Sequence[Curve], boxes: list[Box]) -> None:
        """Moves everything so that it begins at the margins, and reckons the size."""
        points = [along(curve, 0.5) for curve in curves]
        edges = [(x - RADIUS - 8, y - RADIUS - 8, x + RADIUS + 8, y + RADIUS + 8) for x, y in self.spots.values()]
        edges += [(x, y, x, y) for x, y in points] + boxes
        left, top = min(edge[0] for edge in edges), min(edge[1] for edge in edges)
        right, bottom = max(edge[2] for edge in edges), max(edge[3] for edge in edges)
        head = TITLE if any(drawn.title for drawn in self.drawns) else MARGIN
        away_x, away_y = MARGIN - left, head - top
        self.spots = {router: (round(x + away_x), round(y + away_y)) for router, (x, y) in self.spots.items()}
        self.curves: dict[Ends, tuple[int, Curve]] = {}
        for ends, curve in zip(self.network.links, curves):
            begin, bend, end = ((x + away_x, y + away_y) for x, y in curve)
            self.curves[frozenset(ends)] = ends[0], (begin, bend, end)
        written = [len(drawn.title) * BOLD for drawn in self.drawns]
        written += [len(text) * BOLD for drawn in self.drawns for text, _ in drawn.captions]
        self.width = round(max([right - left] + written) + 2 * MARGIN)
        self.captions = max(len(drawn.captions) for drawn in self.drawns)
        self.height = round(bottom - top + head + LINE * self.captions + MARGIN + 4)

    def arrows(self) -> Iterator[Link]:
        """Each hop of a route, or of a path that a router would take, in one of the pictures."""
        for drawn in self.drawns:
            for path in (*drawn.routes.values(), *drawn.wanted.values()):
                if len(path) > 1:
                    yield path[0], path[1]

    def choose_sides(self, curves: Sequence[Curve]) -> list[Box]:
        """Has the texts of each router stand where they cover least, of links, arrows, routers and other texts, those
        with the most to say first. Answers their boxes."""
        points = [along(curve, at / 40) for curve in curves for at in range(41)]
        known = {frozenset(ends) for ends in self.network.links}
        points += [along((self.spots[one], self.spots[one], self.spots[other]), at / 40)
                   for one, other in set(self.arrows()) if frozenset((one, other)) not in known for at in range(41)]
        taken: list[Box] = []
        for router in sorted(self.network.routers, key=lambda router: (-self.texts[router].height, router)):
            texts = self.texts[router]
            costs: dict[Side, tuple[float, int]] = {}
            if not texts.height:
                continue
            for place, side in enumerate(SIDES):
                box = texts.box(self.spots[router], side)
                cost = OVER_LINK * sum(is_inside(point, box, OFF) for point in points)
                cost += OVER_ROUTER * sum(is_inside(spot, box, CLEAR) for spot in self.spots.values())
                cost += OVER_TEXT * sum(common(box, other) > 0 for other in taken)
                costs[side] = cost, place
            self.sides[router] = min(costs, key=lambda side: costs[side])
            taken.append(texts.box(self.spots[router], self.sides[router]))
        return taken

    def bent(self, ends: Link) -> Curve:
        """The curve of a link, straight where no other router stands in its way."""
        (x, y), (to_x, to_y) = (self.spots[end] for end in ends)
        length = distance((x, y), (to_x, to_y)) or 1
        others = [spot for router, spot in self.spots.items() if router not in ends]
        best: tuple[float, Curve] | None = None
        for bend in BENDS:
            # A curve comes half as far as the point that it bends to.
            point = (x + to_x) / 2 - 2 * bend * (to_y - y) / length, (y + to_y) / 2 + 2 * bend * (to_x - x) / length
            curve: Curve = (x, y), point, (to_x, to_y)
            steps = max(8, int(length / 6))
            near = min((distance(along(curve, at / steps), other) for other in others for at in range(1, steps)),
                       default=CLEAR)
            if best is None or near > best[0]:
                best = near, curve
            if near >= CLEAR:
                return curve
        assert best is not None, "there is more than one bend"
        return best[1]

    def curve(self, one: int, other: int) -> Curve:
        """The curve of a link from one router to another, straight where there is no link."""
        if frozenset((one, other)) not in self.curves:
            (x, y), (to_x, to_y) = self.spots[one], self.spots[other]
            return (x, y), ((x + to_x) / 2, (y + to_y) / 2), (to_x, to_y)
        first, (begin, bend, end) = self.curves[frozenset((one, other))]
        return (begin, bend, end) if first == one else (end, bend, begin)
