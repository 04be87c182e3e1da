"""The messages of a run as a picture: a line down for each router, an arrow for each message and item that passes."""
from __future__ import annotations

import bisect
from collections import defaultdict, deque
from dataclasses import dataclass, replace
from typing import Any, Callable, DefaultDict, Deque, Dict, Iterable, Iterator, List, NamedTuple, Sequence, Tuple

from bgpnet import drawing
from bgpnet.layout import LINE, Box, Point, common
from bgpnet.network import Link, Network, Prefix, read_path
from bgpnet.playing import verdict_text
from bgpnet.program import Program, Refusal
from bgpnet.tracing import COMMANDS, Event, events_of, orders_of

MOST_ROWS = 2000
MOST_EVENTS = 10**9
MOST_COLUMNS = 20

COLOURS = {"dial": "#70757a", "keepalive": "#70757a", "open": "#00795a", "announce": "#0072b2", "withdraw": "#d55e00",
           "shut": "#7a4f01", "notification": "#7a4f01", "marker": "#8430ce", "octets": "#5f6368"}
BROKEN = {"withdraw": "8 3", "marker": "2 3"}
UPDATES = ("announce", "withdraw")
STYLE = """\
text { font: 12px "DejaVu Sans", Verdana, Helvetica, Arial, sans-serif; fill: #5f6368 }
.number { font-weight: bold; font-size: 15px; fill: #202124; text-anchor: middle }
.router { fill: #e8f0fe; stroke: #0072b2 }
.line { stroke: #dadce0; stroke-width: 2 }
.second { stroke: #bdc1c6; stroke-dasharray: 2 4 }
.said { paint-order: stroke; stroke: white; stroke-width: 3px }
.kept { fill: #e3f0f8; stroke: #0072b2 }
.lost { fill: #fdebdd; stroke: #d55e00; stroke-dasharray: 4 2 }
.path { font-weight: bold; fill: #202124; text-anchor: middle }
.command { fill: #202124 }
.order { font-style: italic; fill: #202124; paint-order: stroke; stroke: white; stroke-width: 3px }
.state { paint-order: stroke; stroke: white; stroke-width: 3px }
.event { text-anchor: end }
.before { text-anchor: end }
.middle { text-anchor: middle }
.recording { fill: #8430ce }
.cut { fill: none; stroke: #8430ce; stroke-width: 2; stroke-dasharray: 10 4 }
.verdict { font-weight: bold; fill: #8430ce }
""" + "\n".join(
    f".{kind} {{ fill: none; stroke: {colour}; stroke-width: {2.4 if kind in UPDATES else 1.2}"
    f"{'; stroke-dasharray: ' + BROKEN[kind] if kind in BROKEN else ''} }}\n"
    f".ends-{kind} {{ marker-end: url(#{kind}) }}\n"
    f".put-{kind} {{ fill: {colour} }}\n"
    f".of-{kind} {{ fill: {colour} }}" for kind, colour in COLOURS.items())
HEAD = "<defs>\n" + "\n".join(
    f'<marker id="{kind}" viewBox="0 0 10 10" refX="9" refY="5" markerWidth="8" markerHeight="8" '
    f'markerUnits="userSpaceOnUse" orient="auto"><path d="M0 0L10 5L0 10z" fill="{colour}"/></marker>'
    for kind, colour in COLOURS.items()) + "\n</defs>"

# What a legend says of each thing that is drawn, in this order.
LEGEND = {"command": "command", "announce": "UPDATE that announces", "withdraw": "UPDATE that withdraws",
          "put": "it is put into the pipe", "open": "OPEN", "grey": "dial, KEEPALIVE", "brown": "shut, NOTIFICATION",
          "marker": "marker of a snapshot", "octets": "octets of a message", "kept": "path kept from here on",
          "recording": "snapshot recorded", "cut": "cut of the snapshot", "event": "event (others have no row)"}
GREY, BROWN = ("dial", "keepalive"), ("shut", "notification")

GAP, ROW, LETTER, LETTER_HEIGHT = 140, 24, 7.4, 13
LEFT, LEAST_RIGHT, TOP, BOTTOM = 92, 60, 52, 24
NUMBERS = 36  # where the numbers of events end
BOLD, MOST_LETTERS = 10, 11  # how wide a letter of a router's name is, and how many have room
BESIDE, LANE, MOST_LANES = 5, 4, 5  # how far beside the line of a router a message runs that waits there, and others
# A slide of 13.3 by 7.5 inches, in points; how high letters are, and how high at least.
SLIDE, POINTS, LEAST_POINTS = (960, 540), 12, 6


@dataclass(frozen=True)
class Shown:
    """What a chart shows: events by their numbers and by the lines of the input that they are of; UPDATEs, commands but
    `start` and kept paths alone; UPDATEs and kept paths of a prefix alone; in so many columns, or in those that a slide
    takes, on which letters are so many points high."""

    first: int = 1
    last: int = MOST_EVENTS
    first_line: int = 1
    last_line: int = MOST_EVENTS
    updates: bool = False
    prefix: Prefix | None = None
    columns: int = 1
    slide: bool = False
    points: int = POINTS


class Element(NamedTuple):
    """An element of the picture: the place that says in which column it stands, its tag, text and attributes."""

    at: float
    tag: str
    text: str | None
    attributes: Dict[str, Any]


class Line(NamedTuple):
    """A line of points, which columns may part: its kind, and that of the arrow at its end, if it has one."""

    kind: str
    points: Sequence[Point]
    ends: str | None


# A place of a text: where it begins, ends or has its middle (`anchor`), and its foot.
Place = Tuple[float, float, str]


def kind_of(item: str) -> str:
    """The class of an item, which is its colour."""
    first, *rest = item.split(" ")
    if first == "update":
        return "announce" if "announce" in rest else "withdraw"
    return first if first in COLOURS else "octets"


def short(item: str, network: Network) -> str:
    """What is written on the arrow of an item."""
    first, *rest = item.split(" ")
    if first == "update":
        withdrawn = ["withdraw"] * ("withdraw" in rest)
        paths = [named(path, network) for word, path in zip(rest, rest[1:]) if word == "path"]
        return " ".join(withdrawn + paths) or "update"
    if first == "notification":
        return "NOTIFICATION " + "/".join(rest[:2])
    return first.upper() if first in ("open", "keepalive") else item


def named(path: str, network: Network) -> str:
    """A path as the program writes it, by the names of its routers."""
    return network.path_text(read_path(path))


def fitting(name: str) -> str:
    """A router's name, cut where its box has no room for it."""
    return name if len(name) <= MOST_LETTERS else name[: MOST_LETTERS - 1] + "\u2026"


def is_told(item: str, prefix: str, path: str) -> bool:
    """Whether an item is the UPDATE that tells a path of a prefix, `none` where it withdraws it."""
    words = item.split(" ")
    return words[:3] == ["update", "withdraw", prefix] if path == "none" else (
        words[:5] == ["update", "announce", prefix, "path", path])


@dataclass
class Passing:
    """A message or item on its way: what it is, of an UPDATE the prefix and the path that are told, where its arrow
    begins, how far beside the line of its router, whether it is shown, where it was put and taken, and in which lane it
    runs."""

    item: str
    told: Tuple[str, str] | None = None
    y: int = 0
    edge: int = 0
    is_shown: bool = False
    put: int | None = None
    taken: int | None = None
    lane: int = 0


class Chart:
    """The chart of a run. Places are reckoned in one long column, `y` from 0; at the end it is parted."""

    def __init__(self, network: Network, shown: Shown) -> None:
        self.network, self.shown, self.y, self.rows = network, shown, 0, 0
        self.owner: int | None = None  # the router of what stands in the last row
        self.seconds: dict[str, int] = {}  # that passed since the last row, by router
        self.edge, self.edge_at = 0, 0  # how far the last box goes to a side, and its row
        self.numbers: list[int | None] = []  # of each row the number of its event, or None
        self.x = {router: LEFT + GAP * at for at, router in enumerate(network.routers)}
        # Of each way of a link what was told and not put; the pieces that were put and not taken; the UPDATEs that were
        # taken and not handled.
        self.told: DefaultDict[Link, Deque[Passing]] = defaultdict(deque)
        self.pipes: DefaultDict[Link, Deque[List[Passing]]] = defaultdict(deque)
        self.taken: DefaultDict[Link, Deque[Passing]] = defaultdict(deque)
        self.elements: list[Element] = []
        self.lines: list[Line] = []
        self.labels: list[tuple[str, str, Sequence[Place]]] = []  # texts that may stand in more than one place
        self.boxes: list[Box] = []  # what texts have to avoid
        self.recorded: dict[str, dict[int, int]] = {}  # of each snapshot the place of each router's recording

    # ---- rows

    def row(self, event: Event, owner: int | None = None) -> int:
        """Goes on to the next row, of an event."""
        self.pass_seconds()
        return self.next_row(event.number, owner)

    def next_row(self, number: int | None, owner: int | None = None) -> int:
        self.y += ROW
        self.rows += 1
        self.owner = owner
        self.numbers.append(number)
        if self.rows > MOST_ROWS:
            raise Refusal(f"more than {MOST_ROWS} rows: --to {self.last_event()} has room; --from, --updates and "
                          "--prefix show a part too")
        return self.y

    def last_event(self) -> int:
        """The last event that has a row of its own."""
        return next((number for number in reversed(self.numbers[:MOST_ROWS]) if number), 1)

    def row_of(self, event: Event, owner: int) -> int:
        """The row of an event: that which is there, where what stands in it is of the same router."""
        if self.owner == owner and not self.seconds:
            return self.y
        return self.row(event, owner)

    def pass_seconds(self) -> None:
        """Draws the seconds that passed since the last row."""
        passed, self.seconds = max(self.seconds.values(), default=0), {}
        if passed:
            y = self.next_row(None)
            left, right = LEFT - 40, LEFT + 40 + GAP * (len(self.x) - 1)
            self.line("second", [(left, y), (right, y)])
            self.add(y, "text", f"{passed} s", class_="state before", x=left - 4, y=y + 4)

    # ---- elements

    def add(self, at: float, tag: str, text: str | None = None, **attributes: Any) -> None:
        self.elements.append(Element(at, tag, text, attributes))

    def line(self, kind: str, points: Sequence[Point], ends: str | None = None) -> None:
        self.lines.append(Line(kind, points, ends))

    def box(self, x: float, y: float, width: float, height: float) -> None:
        self.boxes.append((x, y, x + width, y + height))

    def label(self, text: str, kind: str, places: Sequence[Place]) -> None:
        """A text that stands in one of some places: of each where it begins, ends or has its middle, and its foot."""
        self.labels.append((text, kind, places))

    def place_labels(self) -> None:
        """Gives each label the place in which it covers least."""
        for text, kind, places in self.labels:
            width = LETTER * len(text)
            best: tuple[float, Box, Place] | None = None
            for x, y, anchor in places:
                left = x - (width if anchor == "before" else width / 2 if anchor == "middle" else 0)
                box = left, y - LETTER_HEIGHT + 3, left + width, y + 3
                covered = sum(common(box, other) for other in self.boxes)
                if best is None or covered < best[0]:
                    best = covered, box, (x, y, anchor)
                if not covered:
                    break
            assert best is not None, "a label has a place"
            _, box, (x, y, anchor) = best
            self.boxes.append(box)
            self.add(y - 4, "text", text, class_=f"{kind} {anchor}".rstrip(), x=round(x), y=round(y))
        self.labels = []

    # ---- events

    def shows(self, event: Event) -> bool:
        return (self.shown.first <= event.number <= self.shown.last
                and self.shown.first_line <= event.line <= self.shown.last_line)

    def is_asked(self, item: str) -> bool:
        """Whether an item is of a kind and a prefix that are to be shown."""
        is_update = item.startswith("update")
        if self.shown.updates and not is_update:
            return False
        return not (is_update and self.shown.prefix) or str(self.shown.prefix) in item.split(" ")

    def tells(self, event: Event) -> None:
        """An UPDATE is appended to the outbox."""
        sender = int(event.words[1])
        for said in event.things("tells"):
            receiver, prefix, path = said.split(" ")
            item = f"update withdraw {prefix}" if path == "none" else f"update announce {prefix} path {path}"
            shown = self.is_asked(item) and self.shows(event)
            y = self.row_of(event, sender) if shown else self.y
            edge = self.edge if y == self.edge_at else 0
            passing = Passing(item, (prefix, path), y, edge, shown)
            is_right = self.x[int(receiver)] > self.x[sender]
            waiting = [other.lane for (router, peer), others in self.told.items() for other in others
                       if router == sender and (self.x[peer] > self.x[sender]) == is_right]
            passing.lane = next(lane for lane in range(MOST_LANES + 1) if lane == MOST_LANES or lane not in waiting)
            self.told[sender, int(receiver)].append(passing)

    def put(self, event: Event) -> None:
        way = sender, _ = int(event.words[1]), int(event.words[2])
        piece: list[Passing] = []
        shown = self.shows(event)
        for item in event.things("sends") or ["octets"]:
            passing = self.taken_out(self.told[way], item) if item.startswith("update") else None
            passing = passing or Passing(item)
            passing.item = item
            passing.is_shown |= shown and self.is_asked(item)
            piece.append(passing)
        if shown and any(passing.is_shown for passing in piece):
            has_told = any(passing.told and passing.y == self.y for passing in piece)
            y = self.row_of(event, sender) if has_told else self.row(event, sender)
        else:
            y = self.y
        for passing in piece:
            passing.put = y
            if not passing.told:
                passing.y = y
        self.pipes[way].append(piece)

    @staticmethod
    def taken_out(queue: Deque[Passing], item: str) -> Passing | None:
        """The first UPDATE of a queue that an item is, taken out."""
        for at, passing in enumerate(queue):
            if passing.told and is_told(item, *passing.told):
                del queue[at]
                return passing
        return None

    def take(self, event: Event) -> None:
        receiver, sender = map(int, event.words[1:3])
        piece, unhandled = self.pipes[sender, receiver].popleft(), self.taken[sender, receiver]
        # Nothing is taken while a whole message waits: what is left was dropped, its session closed.
        while unhandled:
            dropped = unhandled.popleft()
            if dropped.is_shown:
                self.arrow((sender, receiver), dropped)
        for passing in piece:
            passing.is_shown |= self.is_asked(passing.item) and self.shows(event)
        y = self.row(event, receiver) if any(passing.is_shown for passing in piece) else self.y
        for passing in piece:
            passing.taken = y
            if passing.told:
                unhandled.append(passing)
            elif passing.is_shown:
                self.arrow((sender, receiver), passing, y)

    def handle(self, event: Event) -> None:
        receiver, sender = map(int, event.words[1:3])
        for item in event.things("hears"):
            if not item.startswith("update"):
                continue
            passing = self.taken_out(self.taken[sender, receiver], item)
            # One that came in pieces was not seen as it was put.
            passing = passing or self.taken_out(self.told[sender, receiver], item)
            if passing and (passing.is_shown or self.is_asked(item) and self.shows(event)):
                passing.item = item
                y = self.y if passing.taken == self.y and self.owner == receiver else self.row(event, receiver)
                self.arrow((sender, receiver), passing, y)

    def arrow(self, way: Link, passing: Passing, end: int | None = None) -> None:
        """The arrow of what passes a way: to where it ends, or between the lines."""
        (x, to_x), kind = (self.x[router] for router in way), kind_of(passing.item)
        side = 1 if to_x > x else -1
        points: list[Point] = [(x + side * passing.edge, passing.y)]
        beside = x + side * (BESIDE + LANE * passing.lane)
        if passing.told and passing.put is None and passing.taken is None and end is None:
            points += [(beside, passing.y), (beside, self.y + ROW)]
            slant = points[-2:]
        else:
            if passing.told and passing.put is not None:
                put_x = beside if passing.put > passing.y else x + side * max(BESIDE, passing.edge)
                points += [(put_x, passing.y)] * (passing.put > passing.y) + [(put_x, passing.put)]
                self.add(passing.put, "circle", class_=f"put-{kind}", cx=put_x, cy=passing.put, r=3.5)
            begin = len(points) - 1
            if end is None and passing.taken is None:
                points.append((round((x + to_x) / 2), points[-1][1] + ROW))
            elif passing.taken is not None and end is not None and end > passing.taken:
                points += [(to_x - side * BESIDE, passing.taken), (to_x - side * BESIDE, end), (to_x, end)]
            else:
                arrived = passing.taken if end is None else end
                assert arrived is not None, "what has not come was looked at above"
                points.append((to_x, arrived))
            slant = points[begin:begin + 2]
        self.line(kind, points, kind)
        (from_x, from_y), (slant_x, slant_y) = slant
        places: list[Place] = []
        for along in (0.35, 0.55, 0.75, 0.2, 0.9):
            at_x, at_y = from_x + (slant_x - from_x) * along, from_y + (slant_y - from_y) * along
            places += [(at_x, at_y - 4, "middle"), (at_x, at_y + 13, "middle")]
        self.label(short(passing.item, self.network), f"said of-{kind}", places)

    def command(self, event: Event) -> None:
        owner = int(event.words[1])
        x, y = self.x[owner], self.row(event, owner)
        self.add(y, "path", class_="command", d=("M", [(x, y - 6), (x + 6, y), (x, y + 6), (x - 6, y)], "z"))
        self.box(x - 6, y - 6, 12, 12)
        text = " ".join(event.words[:1] + event.words[2:])
        self.label(text, "order", [(x + 10, y + 4, ""), (x - 10, y + 4, "before")])

    def keeps(self, event: Event, words: Sequence[str]) -> None:
        """A box for `keeps PREFIX PATH, kept PATH`."""
        if self.shown.prefix and words[1] != str(self.shown.prefix):
            return
        owner = int(event.words[1])
        path, x, y = named(words[2].rstrip(","), self.network), self.x[owner], self.row(event, owner)
        width = round(12 + LETTER * len(path))
        self.edge, self.edge_at = width // 2, y
        self.box(x - width / 2, y - 12, width, 17)
        self.add(y, "rect", class_="lost" if path == "none" else "kept", x=round(x - width / 2), y=y - 12, width=width,
                 height=17, rx=4)
        self.add(y, "text", path, class_="path", x=x, y=y + 1)

    def said(self, event: Event) -> None:
        """What else was said of an event."""
        router = int(event.words[1])
        x = self.x[router]
        for text in event.said:
            words = text.split(" ")
            if words[0] == "keeps":
                self.keeps(event, words)
            elif words[0] == "session" and words[2] in ("Established", "Idle") and not self.shown.updates:
                state = "up" if words[2] == "Established" else "down"
                self.label(f"{words[1]} {state}", "state",
                           [(x - 7, self.y + 13, "before"), (x + 7, self.y + 13, ""), (x - 7, self.y - 5, "before")])
            elif words[0] == "records":
                self.add(self.y, "rect", class_="recording", x=x - 5, y=self.y + 6, width=10, height=10)
                self.box(x - 5, self.y + 6, 10, 10)
                self.recorded.setdefault(words[1], {})[router] = self.y + 11
                self.owner = None  # what follows stands below it

    def event(self, event: Event) -> None:
        word = event.words[0]
        act = {"put": self.put, "take": self.take, "handle": self.handle, "advertise": self.tells}.get(word)
        if act:
            act(event)
        elif self.shows(event) and word in COMMANDS and not (self.shown.updates and word == "start"):
            self.command(event)
        elif self.shows(event) and word == "tick":
            self.seconds[event.words[1]] = self.seconds.get(event.words[1], 0) + 1
        if self.shows(event):
            self.said(event)

    def end(self) -> None:
        """Draws what has not come, and the cuts that go through every router."""
        for way in sorted({*self.told, *self.pipes, *self.taken}):
            left = [passing for piece in self.pipes[way] for passing in piece]
            for passing in (*self.taken[way], *left, *self.told[way]):
                if passing.is_shown:
                    self.arrow(way, passing)
        self.pass_seconds()
        for snapshot, spots in self.recorded.items():
            if set(spots) == set(self.x):
                first, last = list(self.x)[0], list(self.x)[-1]
                points = [(self.x[first] - 42, spots[first]), *((self.x[router], spots[router]) for router in self.x),
                          (self.x[last] + 42, spots[last])]
                self.line("cut", points)
                x, y = points[-1]
                self.label(f"cut {snapshot}", "verdict", [(x + 4, y + 4, ""), (x - 4, y - 5, "before")])
        self.place_labels()

    # ---- legend

    def kinds(self) -> list[str]:
        """What is drawn, of the things that a legend names."""
        drawn = {line.kind for line in self.lines} | {kind.split("-")[0] for element in self.elements
                                                      for kind in element.attributes.get("class_", "").split()}
        drawn |= {"event"} if any(self.numbers) else set()
        drawn |= {"kept"} if "lost" in drawn else set()
        drawn |= {name for name, kinds in (("grey", GREY), ("brown", BROWN)) if drawn.intersection(kinds)}
        return [kind for kind in LEGEND if kind in drawn]

    def legend_places(self, width: float) -> tuple[list[tuple[str, int, int]], int]:
        """Where each thing of the legend stands, and how high that is. A slide has none."""
        places: list[tuple[str, int, int]] = []
        x: float = LEFT - 28
        y = LETTER_HEIGHT
        for kind in [] if self.shown.slide else self.kinds():
            needed = 32 + LETTER * len(LEGEND[kind])
            if places and x + needed > width:
                x, y = LEFT - 28, y + ROW
            places.append((kind, round(x), y))
            x += needed + 14
        return places, y + ROW if places else 0

    def draw_legend(self, canvas: drawing.Canvas, width: float, top: int) -> None:
        for kind, x, y in self.legend_places(width)[0]:
            self.sample(canvas, kind, x, top + y)
            canvas.add("text", LEGEND[kind], class_="legend", x=x + 30, y=top + y + 4)

    @staticmethod
    def sample(canvas: drawing.Canvas, kind: str, x: int, y: int) -> None:
        """A thing as it is drawn, in small. What it is drawn with stands in its own style."""
        if kind == "command":
            canvas.add("path", class_="sample", d=f"M{x + 12} {y - 6}L{x + 18} {y}L{x + 12} {y + 6}L{x + 6} {y}z")
        elif kind == "put":
            canvas.add("circle", class_="sample", style=f"fill: {COLOURS['announce']}", cx=x + 12, cy=y, r=3.5)
        elif kind == "kept":
            canvas.add("rect", class_="sample", style="fill: #e3f0f8; stroke: #0072b2", x=x, y=y - 7, width=24,
                       height=14)
        elif kind == "recording":
            canvas.add("rect", class_="sample", style="fill: #8430ce", x=x + 7, y=y - 5, width=10, height=10)
        elif kind == "event":
            canvas.add("text", "12", class_="legend", x=x + 6, y=y + 4)
        else:
            kind = {"grey": GREY[0], "brown": BROWN[0]}.get(kind, kind)
            colour, wide = COLOURS.get(kind, "#8430ce"), 2.4 if kind in UPDATES else 2 if kind == "cut" else 1.2
            dashes = "10 4" if kind == "cut" else BROKEN.get(kind, "none")
            canvas.add("path", class_="sample", d=f"M{x} {y}L{x + 24} {y}",
                       style=f"fill: none; stroke: {colour}; stroke-width: {wide}; stroke-dasharray: {dashes}")

    # ---- columns

    def open_arrows(self) -> list[int]:
        """How many lines pass the end of each row but the last."""
        begun = [0] * (self.rows + 2)
        for kind, points, _ in self.lines:
            rows = [self.row_at(y) for _, y in points]
            if kind != "cut":
                begun[max(0, min(rows))] += 1
                begun[max(0, min(max(rows), self.rows))] -= 1
        passing, found = 0, []
        for row in range(self.rows - 1):
            passing += begun[row]
            found.append(passing)
        return found

    @staticmethod
    def row_at(y: float) -> int:
        """The row, from 0, in which something stands."""
        return int((y + ROW / 2 - 1) // ROW - 1)

    def breaks(self, columns: int) -> list[int]:
        """The first row of each of some columns: near to even parts, where the fewest arrows are under way."""
        passing, firsts = self.open_arrows(), [0]
        for column in range(1, columns):
            even, reach = self.rows * column / columns, self.rows / columns / 2
            near = [row for row in range(firsts[-1] + 1, self.rows) if abs(row - even) <= reach]
            firsts.append(min(near, key=lambda row: (passing[row - 1], abs(row - even)), default=firsts[-1]))
        return firsts

    def size(self, columns: int, verdicts: Sequence[str]) -> tuple[list[int], int, int, int]:
        """The first row of each column, its width, and the size of the file."""
        firsts = self.breaks(columns)
        rows = max([1] + [end - first for first, end in zip(firsts, firsts[1:] + [self.rows])])
        last = LEFT + GAP * (len(self.x) - 1)
        width = round(max([last + LEAST_RIGHT] + [right + 8 for _, _, right, _ in self.boxes]))
        whole = round(max([width * columns] + [LEFT - 28 + LETTER * len(verdict) + 8 for verdict in verdicts]))
        below = BOTTOM + LINE * len(verdicts) + self.legend_places(whole)[1]
        return firsts, width, whole, TOP + ROW * (rows + 1) + below

    def columns_on_a_slide(self, verdicts: Sequence[str], points: int | None = None) -> int:
        """The fewest columns with which it has room on a slide, its letters so many points high; 0 where none have."""
        share = POINTS / (points or self.shown.points)
        for columns in range(1, MOST_COLUMNS + 1):
            _, _, width, height = self.size(columns, verdicts)
            if width <= SLIDE[0] * share and height <= SLIDE[1] * share:
                return columns
        return 0

    def text(self, verdicts: Sequence[str]) -> str:
        """The text of the file, with lines that say how snapshots came out."""
        columns = self.columns_on_a_slide(verdicts) if self.shown.slide else self.shown.columns
        firsts, width, whole, height = self.size(columns, verdicts)
        legend = self.legend_places(whole)[1]
        bottom = height - BOTTOM - LINE * len(verdicts) - legend
        canvas = drawing.Canvas()

        def column_of(y: float) -> int:
            return max(0, bisect.bisect(firsts, self.row_at(y)) - 1)

        def moved(column: int, x: float, y: float) -> tuple[int, int]:
            return round(x + width * column), round(y + TOP - ROW * firsts[column])

        for column in range(columns):
            for router, x in self.x.items():
                x += width * column
                canvas.add("line", class_="line", x_1=x, y_1=48, x_2=x, y_2=bottom)
                name = fitting(self.network.name_of(router))
                half = max(28, len(name) * BOLD // 2 + 6)
                canvas.add("rect", class_="router", x=x - half, y=18, width=2 * half, height=30, rx=6)
                canvas.add("text", name, class_="number", x=x, y=39)
        for at, number in enumerate(self.numbers, 1):
            if number:
                column = column_of(at * ROW)
                x, y = moved(column, NUMBERS, at * ROW + 4)
                canvas.add("text", str(number), class_="event", x=x, y=y)
        for kind, points, ends in self.lines:
            parts = list(parted(points, lambda column: ROW * (firsts[column] + 1) - ROW // 2 + 1, column_of))
            for part, (column, own) in enumerate(parts):
                spelt = "L".join("{} {}".format(*moved(column, *point)) for point in own)
                is_end = ends and part == len(parts) - 1
                canvas.add("path", class_=f"{kind} ends-{ends}" if is_end else kind, d="M" + spelt)
        for place, tag, text, attributes in self.elements:
            column = column_of(place)
            attributes = dict(attributes)
            for across, down in (("x", "y"), ("cx", "cy")):
                if across in attributes:
                    attributes[across], attributes[down] = moved(column, attributes[across], attributes[down])
            if "d" in attributes:
                begin, corners, close = attributes["d"]
                attributes["d"] = begin + "L".join("{} {}".format(*moved(column, *point)) for point in corners) + close
            canvas.add(tag, text, **attributes)
        for at, verdict in enumerate(verdicts):
            canvas.add("text", verdict, class_="verdict", x=LEFT - 28, y=bottom + 16 + LINE * at)
        self.draw_legend(canvas, whole, height - legend)
        return drawing.file_of(whole, height, canvas.elements, STYLE, HEAD)


def chart_of(network: Network, events: Iterable[Event], shown: Shown) -> Chart:
    """The chart of the events of a run."""
    chart = Chart(network, shown)
    for event in events:
        chart.event(event)
    chart.end()
    return chart


def part_with_room(network: Network, events: Sequence[Event], shown: Shown, chart: Chart,
                   verdicts: Sequence[str]) -> str:
    """The words that make room on a slide: smaller letters, as many events from the first on as have room, and what
    shows less."""
    points = next((points for points in range(shown.points - 1, LEAST_POINTS - 1, -1)
                   if chart.columns_on_a_slide(verdicts, points)), None)
    numbers = sorted({number for number in chart.numbers if number and number <= shown.last})
    least, most = 0, len(numbers)
    while least < most:
        middle = (least + most + 1) // 2
        if chart_of(network, events, replace(shown, last=numbers[middle - 1])).columns_on_a_slide(verdicts):
            least = middle
        else:
            most = middle - 1
    ways = [f"--points {points}"] * bool(points) + [f"--to {last}" for last in numbers[:least][-1:]]
    room = f": {' or '.join(ways)} has room" if ways else ""
    return f"{room}; --from, --from-line, --updates and --prefix show a part"


def parted(points: Sequence[Point], top_of: Callable[[int], float],
           column_of: Callable[[float], int]) -> Iterator[tuple[int, list[Point]]]:
    """A line of points, parted where columns end: each part with its column."""
    column, own = column_of(points[0][1]), [points[0]]
    for x, y in points[1:]:
        while column_of(y) != column:
            step = 1 if column_of(y) > column else -1
            edge = top_of(column + 1) if step > 0 else top_of(column)
            last_x, last_y = own[-1]
            across = last_x + (x - last_x) * ((edge - last_y) / (y - last_y)) if y != last_y else x
            own.append((across, edge))
            yield column, own
            column, own = column + step, [(across, edge)]
        own.append((x, y))
    yield column, own


def drawn_chart(program: Program, network: Network, text: str, name: str, shown: Shown = Shown()) -> str:
    """The chart of a text with a schedule, as the text of a file; `network` is that of the text."""
    events = events_of(program.trace(text, name), orders_of(text))
    verdicts = [verdict_text(network, line) for line in program.answer(["play"], text, name)
                if line.startswith("snapshot ")]
    chart = chart_of(network, events, shown)
    if shown.slide and not chart.columns_on_a_slide(verdicts):
        raise Refusal(f"{chart.rows} rows of {len(chart.x)} routers have no room on a slide"
                      + part_with_room(network, events, shown, chart, verdicts))
    return chart.text(verdicts)
