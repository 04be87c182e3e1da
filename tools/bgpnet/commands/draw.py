"""Draws a network, as SVG: its links, its rules, and the routes of one prefix.

    tools/draw examples/good-gadget-direct.txt > picture.svg
    tools/draw examples/play/wedgie-stuck.txt > picture.svg
    bgpnet run < net.txt | tools/draw net.txt --routes - > picture.svg

Behind a line `assignment` the routes are its paths, and what `bgpnet check` says of them is written below: each router
that would move (`check --all` lists them) is orange and broken, with the path that it has and the one that it would
take, which `best` marks. Behind a line `schedule` the routes are those at the end of what `bgpnet play` plays; a link
whose session is not up at both ends is crossed out, one over which nothing came for some seconds is dotted, and `check`
judges the network without those that are down. With --routes they are the last `route` lines of a report.

The origin has a ring, and stands below. Beside each router stands the rule that it has, its route in bold; in a network
of more than twelve routers a browser shows the rule of the one under the pointer. Comments `# 30 customer of 18` and
`# 20 peer of 30`, as tools/topology writes them, are drawn on their links, and then customers stand below their
providers. A comment `# 30 at 2 1` puts router 30 two steps to the right and one down, and `# 30 called west` writes
that name into its circle. A legend says what is what."""
from bgpnet.films import drawn_routes, svg_of
from bgpnet.network import network_asked, routes_of
from bgpnet.playing import chosen_prefix, state_behind
from bgpnet.program import Refusal, Words, read_text, tool, write_text
from bgpnet.reports import lines_of


def reported(network, name):
    """The routes of a report, the last of each router and prefix."""
    routes = {}
    for number, router, prefix, path in lines_of(read_text(name), name, ("route",)):
        if not {router, *path} <= set(network.routers) or path[:1] not in ((router,), ()):
            raise Refusal(f"{name}:{number}: a route of another network")
        routes[router, prefix] = path
    return routes


@tool
def main():
    words = Words(__doc__)
    words.add_argument("network", metavar="NETWORK", help="a text of the program, - for the standard input")
    words.add_argument("--routes", metavar="FILE", help="a report of `play` or `run`, - for the standard input")
    words.add_argument("--prefix", metavar="PREFIX", help="the prefix that is drawn (the first that an origin has)")
    words.add_argument("--title", default="", help="what stands above the picture")
    words.add_argument("--no-rules", dest="rules", action="store_false", help="draw no rules and no routes in words")
    words.add_argument("--slide", action="store_true", help="as wide and high as a slide, 16 to 9")
    asked = words.parse_args()
    if asked.routes == asked.network == "-":
        words.error("the network and the routes can't both come by the standard input")
    program, text, network, section, rest = network_asked(asked, asked.network)
    if section:
        program.answer(["check" if section == "assignment" else "play"], text, asked.network)
    prefix, state = chosen_prefix(network, asked.prefix), None
    if asked.routes:
        routes = reported(network, asked.routes)
    elif section == "schedule":
        state = state_behind(program, text, asked.network)
        routes = state.routes
    else:
        routes = routes_of(rest)
    shown = drawn_routes(program, network, prefix, routes, state, asked.title, asked.rules)
    write_text(svg_of(network, prefix, [shown], slide=asked.slide))
    return 0
