"""Makes a page that plays a run, for a browser: one file, which needs nothing else.

    tools/player examples/play/wedgie-whole.txt > run.html
    tools/player --to 2000 long.txt > run.html

The input is a schedule. The page shows what stands behind each event of its run: the network with the routes for a
prefix, a dot for each UPDATE that is told and not acted on, by the teller in its outbox, in the middle in the pipe, by
the hearer taken; the chart of messages up to there; what a router, by a click, heard, keeps and told, as `bgpnet why`
says it; and the line of the schedule that is obeyed. A router that recorded the last snapshot has a violet square, and
an UPDATE in flight across its cut a violet ring; the chart has the cut as a line.

Keys: left and right, an event back and on; page up and down, ten; n and p, to the end of the next line of the schedule
and of the one before; home and end; space plays. A link to an event is run.html#event=12."""
import html
import json
import os
import pathlib

from bgpnet import layout
from bgpnet.network import network_asked, parts_of, routes_of
from bgpnet.program import Refusal, Words, count, tool, write_text
from bgpnet.tracing import COMMANDS, events_of, orders_of

PAGE = pathlib.Path(__file__).resolve().parents[1] / "page"
# How many events a page has at most, and how many octets.
MOST_EVENTS, MOST_OCTETS = 5000, 3 * 10**6
# How much larger the page draws than a picture: its letters are 14 points high.
SCALE = 1.7


def readable(line):
    """A line as its octets spell it in UTF-8."""
    return line.encode("latin-1").decode("utf-8", "replace")


def rules_of(network):
    """The rules of a network as lists of paths, each once, and by router and prefix the place of the one that covers
    it."""
    lists, ruled = [], {}
    places = {}
    for router in network.routers:
        for prefix in network.origins:
            if rule := network.rule(router, prefix):
                if (router, rule.line) not in places:
                    places[router, rule.line] = len(lists)
                    lists.append(["-".join(map(str, path)) for path in rule.paths])
                ruled.setdefault(str(router), {})[str(prefix)] = places[router, rule.line]
    return lists, ruled


def texts_at(placed, router):
    """Where the texts of a router stand: their left end, middle or right end, and their top; and which it is."""
    side = placed.sides[router]
    left, top, right, _ = placed.texts[router].box(placed.spots[router], side)
    x, anchor = ((left, "start"), ((left + right) / 2, "middle"), (right, "end"))[(side[0] < 0) * 2 or side[0] == 0]
    return {"x": round(SCALE * x), "y": round(SCALE * top), "anchor": anchor}


def places_of(network, prefix, routes):
    """The routers and links of a network with their places, and how wide and high it is. There is room for the rules
    and these routes of a prefix beside the routers."""
    origin = network.origins.get(prefix, network.routers[0])
    drawn = layout.Drawn(prefix, routes)
    placed = layout.Layout(network, layout.places(network, origin), [drawn])
    routers = [{"number": str(router), "name": network.names.get(router, ""), "texts": texts_at(placed, router),
                "x": round(SCALE * placed.spots[router][0]), "y": round(SCALE * placed.spots[router][1])}
               for router in network.routers]
    links = [{"ends": list(map(str, ends)),
              "curve": [round(SCALE * number, 1) for point in placed.curve(*ends) for number in point]}
             for ends in network.links]
    return {"routers": routers, "links": links,
            "width": round(SCALE * placed.width), "height": round(SCALE * placed.height)}


def run_of(network, events, said):
    """What the page knows of a run, of which `play` said this."""
    prefix = next(iter(network.origins), None)
    routes = routes_of(said[said.index("now"):])
    lists, ruled = rules_of(network)
    verdicts = {line.split()[1]: line for line in said if line.startswith("snapshot ")}
    return {
        **places_of(network, prefix, {router: routes.get((router, prefix), ()) for router in network.routers}),
        "commands": COMMANDS,
        "origins": {str(prefix): str(router) for prefix, router in network.origins.items()},
        "rules": lists, "ruled": ruled, "verdicts": verdicts,
        "events": [[" ".join(event.words), event.line, *event.said] for event in events],
    }


def page_of(title, lines, run):
    """The page of a run: nothing in it comes from elsewhere, and no text of the run ends a script."""
    parts = {
        "TITLE": html.escape(title),
        "STYLE": (PAGE / "page.css").read_text(),
        "EVENTS": str(len(run["events"])),
        "PREFIXES": "".join(f"<option>{prefix}</option>" for prefix in run["origins"]),
        "LINES": "".join(f'<li value="{number}">{html.escape(readable(line))}</li>' for number, line in lines),
        "RUN": json.dumps(run, separators=(",", ":")).replace("<", "\\u003c"),
        "SCRIPT": (PAGE / "run.js").read_text() + (PAGE / "view.js").read_text(),
    }
    pieces = (PAGE / "page.html").read_text().split("@")
    return "".join(parts[piece] if at % 2 else piece for at, piece in enumerate(pieces))


@tool
def main():
    words = Words(__doc__)
    words.add_argument("schedule", metavar="SCHEDULE", help="an input of `bgpnet play`, - for the standard input")
    words.add_argument("--to", type=count(1, MOST_EVENTS), metavar="N", help="play up to the event of this number")
    asked = words.parse_args()
    program, text, network, section, rest = network_asked(asked, asked.schedule)
    if section != "schedule":
        raise Refusal(f"{asked.schedule}: no schedule")
    said = program.answer(["play"], text, asked.schedule)
    events = events_of(program.trace(text, asked.schedule), orders_of(text))
    if not asked.to and len(events) > MOST_EVENTS:
        raise Refusal(f"{asked.schedule}: {len(events)} events, and at most {MOST_EVENTS} are played: "
                      f"--to {MOST_EVENTS}, or fewer rounds")
    events = events[:asked.to]
    first = len(parts_of(text)[0]) + 1
    lines = [(number, line) for number, line in enumerate(rest, first) if line.strip()]
    name = "a run" if asked.schedule == "-" else os.path.basename(asked.schedule)
    page = page_of(name, lines, run_of(network, events, said))
    if len(page.encode()) > MOST_OCTETS:
        raise Refusal(f"{asked.schedule}: the page has {len(page.encode())} octets, and at most {MOST_OCTETS}: --to "
                      "with fewer events makes it smaller")
    write_text(page)
    return 0
