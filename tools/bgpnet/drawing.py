"""Pictures of networks, as SVG: what is drawn of each. Where it stands is reckoned in `layout`."""
from __future__ import annotations

from html import escape
from typing import Collection, Sequence

from bgpnet.layout import (LEAST_WIDTH, LINE, MARGIN, RADIUS, SLIDE, SMALL_LETTER, Curve, Drawn, Layout, Point, Texts,
                           along, distance, part_of, rule_texts)

# Colours that are told apart without red and green (Okabe and Ito), and never stand alone: a line that means another
# thing is broken in another way.
BLUE, ORANGE, YELLOW, GREY, BLACK = "#0072b2", "#d55e00", "#e69f00", "#5f6368", "#202124"
STYLE = f"""\
text {{ font: 12px "DejaVu Sans", Verdana, Helvetica, Arial, sans-serif; fill: {GREY} }}
.title {{ font-weight: bold; font-size: 13px; fill: {BLACK} }}
.number {{ font-weight: bold; font-size: 13px; fill: {BLACK}; text-anchor: middle }}
.router {{ fill: #f8f9fa; stroke: {GREY}; stroke-width: 2 }}
.origin {{ fill: #e3f0f8; stroke: {BLUE}; stroke-width: 2 }}
.ring {{ fill: none; stroke: {BLUE}; stroke-width: 1.5 }}
.changed {{ fill: none; stroke: {YELLOW}; stroke-width: 3 }}
.unstable {{ fill: #fdebdd; stroke: {ORANGE}; stroke-width: 2.5; stroke-dasharray: 5 2 }}
.link, .broken, .silent, .route, .left, .wanted {{ fill: none }}
.link {{ stroke: #c4c7cc; stroke-width: 2 }}
.broken {{ stroke: {ORANGE}; stroke-width: 2; stroke-dasharray: 4 4 }}
.silent {{ stroke: {GREY}; stroke-width: 2; stroke-dasharray: 1 4 }}
.cross {{ fill: none; stroke: {ORANGE}; stroke-width: 2.5 }}
.route {{ stroke: {BLUE}; stroke-width: 3; marker-end: url(#route) }}
.left {{ stroke: {ORANGE}; stroke-width: 3; stroke-dasharray: 3 2; marker-end: url(#left) }}
.wanted {{ stroke: {ORANGE}; stroke-width: 2; stroke-dasharray: 9 4; marker-end: url(#left) }}
.provider {{ fill: white; stroke: {GREY}; stroke-width: 1.5 }}
.peers {{ fill: white; stroke: {GREY}; stroke-width: 1.5 }}
.rule {{ paint-order: stroke; stroke: white; stroke-width: 3px }}
.seconds {{ text-anchor: middle; paint-order: stroke; stroke: white; stroke-width: 3px }}
.before {{ text-anchor: end }}
.amid {{ text-anchor: middle }}
.kept {{ font-weight: bold; fill: {BLUE} }}
.best {{ font-style: italic; fill: {ORANGE} }}
.good {{ fill: {BLUE} }}
.open {{ font-weight: bold; fill: {BLACK} }}
.bad {{ font-weight: bold; fill: {ORANGE} }}
.legend {{ font-size: 9px; fill: {GREY} }}"""
HEAD = f"""\
<defs>
<marker id="route" viewBox="0 0 10 10" refX="9" refY="5" markerWidth="5" markerHeight="5" orient="auto">
<path d="M0 0L10 5L0 10z" fill="{BLUE}"/></marker>
<marker id="left" viewBox="0 0 10 10" refX="9" refY="5" markerWidth="5" markerHeight="5" orient="auto">
<path d="M0 0L10 5L0 10z" fill="{ORANGE}"/></marker>
</defs>"""
# What a legend says of each thing that is drawn, in this order: its sample, and its words.
LEGEND = {
    "ring": "origin", "route": "route", "changed": "another route than before", "kept": "the path that it has",
    "unstable": "unstable", "left": "the route of an unstable router", "wanted": "the one it would take",
    "broken": "session down", "silent": "nothing came over it for so long", "provider": "points to the provider",
    "peers": "peers",
}


# What is written into a circle: how high letters are at most, and at least in one row, how wide a text may be in one
# row and in each of two; how many letters have room in two rows, and how high they are at most.
LETTERS, LEAST_LETTERS, ROOM, ROW_ROOM, MOST_LETTERS, ROW_LETTERS = 13, 9, 32, 28, 12, 8


def width_of(text: str) -> float:
    """About how wide a text in bold letters is, its letters being 1 high."""
    return sum(0.5 if letter in "fijlrtI.-_" else 1.1 if letter in "mwMW" else 0.85 if letter.isupper() else 0.71
               for letter in text)


def printable(text: str) -> str:
    """The text without the characters that no XML file may have."""
    return "".join(letter for letter in text if letter >= " " and letter not in "\ufffe\uffff" or letter in "\t\n")


class Canvas:
    """The elements of a picture, in the order in which they are drawn."""

    def __init__(self) -> None:
        self.elements: list[str] = []

    def add(self, tag: str, text: str | None = None, **attributes: object) -> None:
        """Adds an element; an attribute `class_` is written `class`, and `x_1` is `x1`."""
        spelt = "".join(f' {name.replace("_", "")}="{escape(str(value))}"' for name, value in attributes.items())
        inner = "/>" if text is None else f">{escape(printable(text), quote=False)}</{tag}>"
        self.elements.append(f"<{tag}{spelt}{inner}")


class Picture(Canvas):
    """A picture of a network: its elements, its size, and the kinds of things in it that a legend explains."""

    def __init__(self, layout: Layout, drawn: Drawn) -> None:
        super().__init__()
        self.network, self.layout, self.drawn = layout.network, layout, drawn
        self.width, self.height = layout.width, layout.height
        self.kinds: set[str] = set()
        self.origin = drawn.origin(self.network)
        self.draw()

    def way(self, curve: Sequence[Point], kind: str) -> None:
        """A line along a curve."""
        (x, y), (bend_x, bend_y), (to_x, to_y) = ([round(number, 1) for number in point] for point in curve)
        if distance((bend_x, bend_y), ((x + to_x) / 2, (y + to_y) / 2)) < 1:
            self.add("line", class_=kind, x_1=x, y_1=y, x_2=to_x, y_2=to_y)
        else:
            self.add("path", class_=kind, d=f"M{x} {y}Q{bend_x} {bend_y} {to_x} {to_y}")
        self.kinds.add(kind)

    def arrow(self, router: int, peer: int, kind: str) -> None:
        """An arrow from a router to the next one on its path, a little beside the link."""
        curve = self.layout.curve(router, peer)
        begin = next((at / 100 for at in range(101) if distance(along(curve, at / 100), curve[0]) >= RADIUS + 2), 0)
        clear = RADIUS + (10 if peer in self.drawn.changed else 6 if peer == self.origin else 4)
        end = next((at / 100 for at in range(100, -1, -1) if distance(along(curve, at / 100), curve[2]) >= clear), 1)
        own = part_of(curve, begin, max(begin, end))
        length = distance(own[0], own[2]) or 1
        aside_x, aside_y = -(own[2][1] - own[0][1]) / length * 4, (own[2][0] - own[0][0]) / length * 4
        self.way([(x + aside_x, y + aside_y) for x, y in own], kind)

    def link(self, one: int, other: int) -> None:
        link, curve = frozenset((one, other)), self.layout.curve(one, other)
        if link in self.drawn.broken:
            x, y = (round(number) for number in along(curve, 0.5))
            self.way(curve, "broken")
            self.add("path", class_="cross", d=f"M{x - 5} {y - 5}l10 10m0 -10l-10 10")
        elif link in self.drawn.silent:
            self.way(curve, "silent")
        else:
            self.way(curve, "link")
        self.relation(one, other, curve)

    def relation(self, one: int, other: int, curve: Curve) -> None:
        """What one end of a link is to the other, a third of the way along it."""
        relation = self.network.relations.get((one, other))
        if relation == "provider":
            curve = curve[2], curve[1], curve[0]
        elif relation not in ("customer", "peer"):
            return
        # The curve leads from the provider to the customer now.
        (x, y), (to_x, to_y) = along(curve, 0.36), along(curve, 0.3)
        if relation == "peer":
            x, y = along(curve, 0.5)
            self.add("circle", class_="peers", cx=round(x, 1), cy=round(y, 1), r=4)
            self.kinds.add("peers")
            return
        length = distance((x, y), (to_x, to_y)) or 1
        along_x, along_y = (to_x - x) / length, (to_y - y) / length
        tip = x + 8 * along_x, y + 8 * along_y
        corners = [tip, (x - 5 * along_y, y + 5 * along_x), (x + 5 * along_y, y - 5 * along_x)]
        spelt = "L".join(f"{round(own_x, 1)} {round(own_y, 1)}" for own_x, own_y in corners)
        self.add("path", class_="provider", d=f"M{spelt}z")
        self.kinds.add("provider")

    def draw(self) -> None:
        for link in self.network.links:
            self.link(*link)
        for router in self.network.routers:
            route = self.drawn.routes.get(router, ())
            if len(route) > 1:
                self.arrow(router, route[1], "left" if router in self.drawn.wanted else "route")
        for router, best in self.drawn.wanted.items():
            if len(best) > 1:
                self.arrow(router, best[1], "wanted")
        for link in self.network.links:
            if seconds := self.drawn.silent.get(frozenset(link)):
                x, y = (round(number) for number in along(self.layout.curve(*link), 0.5))
                self.add("text", f"{seconds} s", class_="seconds", x=x, y=y + 4)
        for router in self.network.routers:
            self.draw_router(router, router in self.drawn.wanted)
        if self.drawn.title:
            self.add("text", self.drawn.title, class_="title", x=MARGIN, y=MARGIN + 8)
        first = self.height - MARGIN - LINE * (self.layout.captions - 1)
        for at, (text, is_good) in enumerate(self.drawn.captions):
            kind = {True: "good", False: "bad", None: "open"}[is_good]
            self.add("text", text, class_=kind, x=MARGIN, y=first + LINE * at)

    def draw_router(self, router: int, is_unstable: bool) -> None:
        x, y = self.layout.spots[router]
        ranked = self.network.ranked(router, self.drawn.prefix) if self.drawn.prefix else None
        about = [f"router {self.network.router_text(router)}"] + list(map(self.network.path_text, ranked or []))
        self.elements.append("<g>")
        self.add("title", "\n".join(about))
        if router == self.origin:
            self.add("circle", class_="ring", cx=x, cy=y, r=RADIUS + 4)
            self.kinds.add("ring")
        if router in self.drawn.changed:
            self.add("circle", class_="changed", cx=x, cy=y, r=RADIUS + 7)
            self.kinds.add("changed")
        kind = "unstable" if is_unstable else "origin" if router == self.origin else "router"
        self.add("circle", class_=kind, cx=x, cy=y, r=RADIUS)
        self.number(router, x, y)
        self.elements.append("</g>")
        self.kinds.add(kind)
        texts, (right, down) = rule_texts(self.network, router, self.drawn), self.layout.sides[router]
        own = Texts([texts])
        left, top, end, _ = own.box((x, y), (right, down))
        at_x = round(left if right > 0 else end if right < 0 else x)
        for at, (text, kind) in enumerate(texts):
            kinds = " ".join(["rule"] + ["before"] * (right < 0) + ["amid"] * (not right) + [kind] * bool(kind))
            self.kinds.add(kind)
            self.add("text", text, class_=kinds, x=at_x, y=round(top + LINE * at + 11))

    def number(self, router: int, x: float, y: float) -> None:
        """The number of a router, or its name, as large as its circle lets it be: a long one in two rows."""
        text = self.network.names.get(router, str(router))
        size = min(LETTERS, int(ROOM / width_of(text)))
        if size >= LEAST_LETTERS:
            rows = [(text, y + round(0.38 * size))]
        else:
            half = -(-min(len(text), MOST_LETTERS) // 2)
            parts = text[:half], text[half:MOST_LETTERS]
            size = min(ROW_LETTERS, int(ROW_ROOM / max(map(width_of, parts))))
            rows = [(part, y - 1 + 8 * row) for row, part in enumerate(parts)]
        smaller = {"style": f"font-size: {size}px"} if size < LETTERS else {}
        for part, foot in rows:
            self.add("text", part, class_="number", **smaller, x=x, y=foot)


class Legend(Canvas):
    """What the things in pictures mean, in rows of a width: its elements, and its height."""

    def __init__(self, kinds: Collection[str], width: float) -> None:
        super().__init__()
        x, y = MARGIN, LINE
        for kind, words in LEGEND.items():
            if kind not in kinds:
                continue
            needed = 28 + SMALL_LETTER * len(words)
            if x > MARGIN and x + needed > width - MARGIN:
                x, y = MARGIN, y + 14
            self.sample(kind, x, y)
            self.add("text", words, class_="legend", x=x + 24, y=y + 3)
            x = round(x + needed + 8)
        self.height = y + LINE if self.elements else 0

    def sample(self, kind: str, x: float, y: float) -> None:
        if kind == "ring":
            self.add("circle", class_="ring", cx=x + 10, cy=y, r=6)
            self.add("circle", class_="origin", cx=x + 10, cy=y, r=4)
        elif kind in ("changed", "unstable", "peers"):
            self.add("circle", class_=kind, cx=x + 10, cy=y, r=4 if kind == "peers" else 5)
        elif kind == "kept":
            self.add("text", "2-1", class_="kept", style="font-size: 9px", x=x + 2, y=y + 3)
        elif kind == "provider":
            self.add("path", class_="provider", d=f"M{x + 16} {y}L{x + 8} {y - 5}L{x + 8} {y + 5}z")
        else:
            self.add("line", class_=kind, x_1=x, y_1=y, x_2=x + 20, y_2=y)
            if kind == "broken":
                self.add("path", class_="cross", d=f"M{x + 6} {y - 4}l8 8m0 -8l-8 8")


def file_of(width: int, height: int, elements: Sequence[str], style: str = STYLE, head: str = HEAD,
            slide: bool = False) -> str:
    """The text of a file of this size; of a slide, as high and wide as that is, with the picture in its middle."""
    left = top = 0
    if slide:
        wide, high = max(width, round(height * SLIDE)), max(height, round(width / SLIDE))
        left, top, width, height = (width - wide) // 2, (height - high) // 2, wide, high
    shown = 'width="1280" height="720"' if slide else f'width="{width}" height="{height}"'
    lines = [f'<svg xmlns="http://www.w3.org/2000/svg" {shown} viewBox="{left} {top} {width} {height}">',
             f"<style>\n{style}\n</style>", head,
             f'<rect x="{left}" y="{top}" width="{width}" height="{height}" fill="white"/>' if slide
             else '<rect width="100%" height="100%" fill="white"/>']
    return "\n".join([*lines, *elements, "</svg>"]) + "\n"


def svg(pictures: Sequence[Picture], columns: int = 1, slide: bool = False) -> str:
    """The text of a file with pictures side by side, so many in a row, and their legend below."""
    width = max(picture.width for picture in pictures)
    height = max(picture.height for picture in pictures)
    rows = -(-len(pictures) // columns)
    elements: list[str] = []
    for at, picture in enumerate(pictures):
        elements.append(f'<g transform="translate({at % columns * width} {at // columns * height})">')
        elements += picture.elements + ["</g>"]
    whole = max(width * min(columns, len(pictures)), LEAST_WIDTH)
    legend = Legend({kind for picture in pictures for kind in picture.kinds}, whole)
    if legend.elements:
        elements += [f'<g class="explained" transform="translate(0 {height * rows})">', *legend.elements, "</g>"]
    return file_of(whole, height * rows + legend.height, elements, slide=slide)
