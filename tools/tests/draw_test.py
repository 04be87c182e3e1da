"""Tests of `draw`, `film` and `pictures`. Pictures are read as XML: where each router stands, from where to where
arrows go, and what is written; what they have to show is asked of the program."""
import itertools
import math
import random
import re
import unittest
import xml.etree.ElementTree

from support import TOP, asked_program, load, run, start

from bgpnet import charts, drawing, layout, network as network_module, playing, tracing
from bgpnet.network import Network, routes_of

topology = load("topology")

PREFIX = "10.1.0.0/16"
WAYS = ("link", "broken", "silent", "route", "left", "wanted")
SVG = "{http://www.w3.org/2000/svg}"


class Seen:
    """What a reader sees in a picture, the part of a file in one group: the place of each router, the routers by their
    circles, lines by their class as pairs of routers, and the texts by their class."""

    def __init__(self, group):
        self.spots, self.circles, self.lines, self.texts, self.curves, self.places = {}, {}, {}, {}, [], []
        elements = [element for element in group.iter() if element.tag != SVG + "g"]
        for element in elements:
            if element.get("class") == "number":
                self.spots[int(element.text)] = (float(element.get("x")), float(element.get("y")) - 5)
        for element in elements:
            kind = element.get("class")
            if element.tag == SVG + "circle" and kind != "peers":
                at = float(element.get("cx")), float(element.get("cy"))
                self.circles.setdefault(kind, []).append(next(router for router, spot in self.spots.items() if spot == at))
            elif element.tag == SVG + "line" or element.tag == SVG + "path" and kind in WAYS:
                curve = curve_of(element)
                self.curves.append((kind, curve))
                self.lines.setdefault(kind, []).append(tuple(map(self.nearest, (curve[0], curve[-1]))))
            elif element.tag == SVG + "text":
                self.texts.setdefault(kind, []).append(element.text)
                self.places.append((kind, float(element.get("x")), float(element.get("y"))))

    def nearest(self, at):
        router = min(self.spots, key=lambda router: math.dist(at, self.spots[router]))
        assert math.dist(at, self.spots[router]) < 33
        return router

    def has(self, kind):
        return self.lines.get(kind, [])


def curve_of(element):
    """The ends of a line, with the point between them that it bends to, where it does."""
    if element.tag == SVG + "path":
        numbers = list(map(float, re.findall(r"-?[\d.]+", element.get("d"))))
        return list(zip(numbers[::2], numbers[1::2]))
    return [(float(element.get("x" + end)), float(element.get("y" + end))) for end in "12"]


def seen(text):
    """The pictures of a file, and its root."""
    root = xml.etree.ElementTree.fromstring(text)
    return [Seen(group) for group in root.findall(SVG + "g") if group.get("class") != "explained"], root


def explained(root):
    """What the legend of a file says."""
    return [element.text for group in root.findall(SVG + "g") if group.get("class") == "explained"
            for element in group.iter(SVG + "text") if element.get("class") == "legend"]


def hops(routes):
    """What arrows have to show of routes: each router with the next one."""
    return sorted((router, path[1]) for router, path in routes.items() if len(path) > 1)


def drawn(*words, given=b""):
    status, out, error = run("draw", *words, given=given)
    assert (status, error) == (0, ""), error
    pictures, _ = seen(out)
    assert len(pictures) == 1
    return pictures[0]


def network_text(routers, links, more=""):
    lines = [f"router {router} 10.0.0.{router}" for router in range(1, routers + 1)]
    lines += [f"link {one} {other}" for one, other in links] + [f"origin 1 {PREFIX}"]
    return "".join(line + "\n" for line in lines) + more


def movers(network, routes):
    """The routers that have not the best of their choices for the prefix of router 1, with that best."""
    (prefix, origin), found = next(iter(network.origins.items())), {}
    for router in network.routers:
        ranked = network.ranked(router, prefix)
        choices = [(router, *routes[peer]) for peer in network.peers[router]
                   if routes.get(peer) and router not in routes[peer]]
        if ranked is not None:
            choices = sorted((path for path in choices if path in ranked), key=ranked.index)
        else:
            choices.sort(key=lambda path: (len(path), path))
        best = (router,) if router == origin else choices[0] if choices else ()
        if best != routes.get(router, ()):
            found[router] = best
    return found


class Draw(unittest.TestCase):
    def test_each_router_that_would_move(self):
        """Of random paths, against choices that are reckoned here, without rules and with them, and of numbers that
        leave gaps."""
        draw = random.Random(3)
        for seed in range(12):
            size = 3 + seed % 6
            numbers = dict(zip(range(1, size + 1), draw.sample(range(1, 90), size)))
            graph = topology.hierarchy(size, seed, size)
            lines = topology.network_lines(graph, [1], "gao-rexford" if seed % 2 else "shortest")
            text = re.sub(r"(?<=[ -])(\d+)(?=[ -]|$)", lambda found: str(numbers.get(int(found[1]), found[1])),
                          "\n".join(line for line in lines if line.startswith(("router", "link", "origin", "rank"))),
                          flags=re.MULTILINE)
            network = Network(text.splitlines())
            prefix = next(iter(network.origins))
            routes = {router: self.some_path(network, prefix, router, draw) for router in network.routers}
            routes[network.origins[prefix]] = (network.origins[prefix],)
            found, _ = playing.judged_captions(asked_program(), network, prefix, routes, (), 0)
            with self.subTest(seed=seed):
                self.assertEqual({router: best for router, _, best in found}, movers(network, routes))
                self.assertEqual({router: path for router, path, _ in found},
                                 {router: routes[router] for router in movers(network, routes)})

    @staticmethod
    def some_path(network, prefix, router, draw):
        """A permitted path of a router, or none."""
        ranked = network.ranked(router, prefix)
        if ranked is not None:
            return draw.choice([(), *ranked])
        path = [router]
        while path[-1] != network.origins[prefix]:
            onward = [peer for peer in network.peers[path[-1]] if peer not in path]
            if not onward:
                return ()
            path.append(draw.choice(onward))
        return tuple(path)

    def test_updates_on_their_way(self):
        """A moment at which `check` says stable is no rest where UPDATEs are under way."""
        text = network_text(2, [(1, 2)]) + (
            "schedule\nstart 1 2\nstart 2 1\nrounds 20\noriginate 1 10.1.0.0/16\ndecide 1\nadvertise 1\nput 1 2\n"
            "take 2 1\nhandle 2 1\ndecide 2\nadvertise 2\n")
        picture = drawn("-", given=text.encode())
        self.assertEqual(picture.texts["open"], ["stable, and 1 UPDATE on its way"])
        self.assertNotIn("good", picture.texts)
        picture = drawn("-", given=(text + "rounds 9\n").encode())
        self.assertEqual(picture.texts["good"], ["stable"])

    def test_places_by_comments(self):
        text = network_text(3, [(1, 2), (2, 3), (1, 3)]) + "# 1 at 0 0\n# 2 at 2 0\n# 3 at 1 1.5\n# 9 at 5 5\n"
        spots = drawn("-", given=text.encode()).spots
        self.assertEqual(spots[2][0] - spots[1][0], 2 * layout.LINK)
        self.assertEqual((spots[1][1], spots[3][0] - spots[1][0]), (spots[2][1], layout.LINK))
        self.assertEqual(spots[3][1] - spots[1][1], 1.5 * layout.LINK)

    def test_customers_stand_below(self):
        for seed in range(8):
            graph = topology.hierarchy(12, seed, 4)
            network = Network(topology.network_lines(graph, graph.routers[-1:], "gao-rexford"))
            spots = layout.places(network, graph.routers[-1])
            for (one, other), relation in network.relations.items():
                if relation == "provider":
                    self.assertGreater(spots[one][1], spots[other][1])

    def test_numbers_and_names_in_circles(self):
        text = ("asn 4\nrouter 64500 10.0.0.1\nrouter 4200000123 10.0.0.2\nrouter 7 10.0.0.3\nlink 64500 4200000123\n"
                "link 64500 7\norigin 64500 10.1.0.0/16\nrank 7 10.1.0.0/16 7-64500\n# 7 called west-1\n")
        status, out, _ = run("draw", "-", given=text.encode())
        self.assertEqual(status, 0)
        self.assertEqual([text for text, _, _ in self.in_circles(out)], ["wes", "t-1", "64500", "42000", "00123"])
        self.assertIn(">west-1-64500</text>", out)
        self.assertIn("<title>router 7 west-1\n", out.replace("</title>", "\n"))

    # How wide letters of DejaVu Sans Bold are, 1 high.
    WIDTHS = {**dict.fromkeys("0123456789", 0.696), "a": 0.675, "c": 0.593, "e": 0.678, "g": 0.716, "m": 1.042,
              "o": 0.687, "r": 0.493, "s": 0.595, "t": 0.478, "u": 0.712, "w": 0.924, "y": 0.652, "W": 1.103, "-": 0.415}

    @staticmethod
    def in_circles(out):
        """What is written into circles, how high its letters are, and how far its middle is from that of the circle."""
        for group in re.findall("<g>\n<title>.*?</g>", out, re.S):
            middle = int(re.findall(r'cy="(\d+)" r="18"', group)[0])
            for style, foot, text in re.findall(r'<text class="number"([^>]*?) x="[^"]*" y="(\d+)">([^<]*)<', group):
                size = int(re.search(r"font-size: (\d+)px", style)[1]) if style else 13
                yield text, size, int(foot) - 0.36 * size - middle

    def test_what_is_written_fits_its_circle(self):
        """Between the ends of its chord at half the height of the letters, numbers and names of any width."""
        numbers = (7, 65, 174, 3356, 8888, 64500, 263000, 4200000123)
        names = ("west", "mmmm", "WWW", "gateway", "core-router-1", "mmmmmmmmmmmm")
        routers = [*numbers, *range(1, len(names) + 1)]
        text = "asn 4\n" + "".join(f"router {one} 10.0.0.{at}\n" for at, one in enumerate(routers, 1))
        text += "".join(f"link {one} {other}\n" for one, other in zip(routers, routers[1:])) + "origin 7 10.1.0.0/16\n"
        text += "".join(f"# {at} called {name}\n" for at, name in enumerate(names, 1))
        found = list(self.in_circles(run("draw", "-", given=text.encode())[1]))
        self.assertEqual(len(found), len(routers) + 6)
        for word, size, away in found:
            chord = 2 * math.sqrt((layout.RADIUS - 1) ** 2 - (abs(away) + 0.2 * size) ** 2)
            with self.subTest(word=word, size=size):
                self.assertLess(sum(map(self.WIDTHS.get, word)) * size, chord)
                self.assertGreaterEqual(size, 4)

    def test_no_rules_and_a_slide(self):
        picture = drawn("examples/disagree.txt", "--no-rules")
        self.assertFalse([kind for kind in picture.texts if kind.startswith("rule")])
        for tool, words in (("draw", ["examples/disagree.txt"]), ("film", ["examples/play/wedgie-whole.txt"])):
            _, root = seen(run(tool, *words, "--slide")[1])
            self.assertEqual((root.get("width"), root.get("height")), ("1280", "720"))
            _, _, width, height = map(float, root.get("viewBox").split())
            self.assertAlmostEqual(width / height, 16 / 9, delta=0.01)

    def test_texts_cover_no_router(self):
        for path in [*sorted((TOP / "examples").glob("*.txt")), *sorted((TOP / "examples/stable").glob("*.txt"))]:
            network = Network(network_module.parts_of(path.read_text())[0])
            prefix = next(iter(network.origins))
            shown = layout.Drawn(prefix, {})
            placed = layout.Layout(network, layout.places(network, network.origins[prefix]), [shown])
            for router, texts in placed.texts.items():
                if texts.height:
                    box = texts.box(placed.spots[router], placed.sides[router])
                    covered = [other for other, spot in placed.spots.items()
                               if layout.is_inside(spot, box, layout.RADIUS - 2)]
                    self.assertEqual(covered, [], (path.name, router))

    def test_examples_of_check(self):
        for path in sorted((TOP / "examples").glob("*.txt")):
            text = path.read_text()
            network = Network(text.split("\nassignment\n")[0].splitlines())
            routes = {router: way for (router, _), way in routes_of(text.splitlines()).items()}
            said = asked_program().answer(["check"], text, path)[0].split()
            with self.subTest(example=path.name):
                picture = drawn(path)
                self.assertEqual(sorted(picture.spots), network.routers)
                self.assertEqual(sorted(picture.has("link")), sorted(network.links))
                self.assertEqual(picture.circles["origin"], [1])
                if said == ["stable"]:
                    self.assertEqual(picture.texts["good"], ["stable"])
                    self.assertEqual(sorted(picture.has("route")), hops(routes))
                    self.assertEqual((picture.has("left"), picture.has("wanted")), ([], []))
                    continue
                moving = movers(network, routes)
                others = ", ".join(map(str, list(moving)[1:]))
                self.assertEqual(picture.texts["bad"], [f"unstable: {said[1]} has {said[3]}, {said[5]} is better"]
                                 + [f"would move too: {others}"] * bool(others))
                self.assertEqual(int(said[1]), min(moving))
                self.assertEqual(sorted(picture.circles["unstable"]), list(moving))
                self.assertEqual(sorted(picture.has("route") + picture.has("left")), hops(routes))
                self.assertEqual(sorted(picture.has("left")), hops({router: routes[router] for router in moving}))
                self.assertEqual(sorted(picture.has("wanted")), hops(moving))

    def test_rules_are_written_out(self):
        picture = drawn("examples/good-gadget-direct.txt", "--title", "a <title> & more")
        written = [text for kind, texts in picture.texts.items() if kind.startswith("rule") for text in texts]
        self.assertEqual(sorted(written), sorted(["2-4-1 best", *"10.1.0.0/16 2-1 3-2-1 3-1 4-1 5-4-1 5-3-1".split()]))
        kept = [text for kind, texts in picture.texts.items() if kind.endswith(" kept") for text in texts]
        self.assertEqual(sorted(kept), "2-1 3-2-1 4-1 5-4-1".split())
        best = [text for kind, texts in picture.texts.items() if kind.endswith(" best") for text in texts]
        self.assertEqual(best, ["2-4-1 best"])
        self.assertEqual(picture.texts["title"], ["a <title> & more"])

    def test_a_schedule_is_played(self):
        picture = drawn("examples/play/wedgie-stuck.txt")
        self.assertEqual(sorted(picture.has("route")), [(2, 1), (3, 2), (4, 1)])
        self.assertEqual(picture.texts["good"], ["snapshot 1 settled", "stable"])
        picture = drawn("-", given=(TOP / "examples/play/reset.txt").read_bytes())
        self.assertEqual((picture.has("broken"), picture.has("route")), ([(1, 2)], []))

    def test_a_network_alone(self):
        picture = drawn("-", given=network_text(3, [(1, 2), (2, 3)]).encode())
        self.assertEqual((picture.has("route"), "good" in picture.texts, "bad" in picture.texts), ([], False, False))
        picture = drawn("-", given=b"router 7 10.0.0.7\n")
        self.assertEqual((list(picture.spots), picture.lines), ([7], {}))

    def test_routes_of_a_report(self):
        path = TOP / "examples/shortest.txt"
        network = Network(path.read_text().split("\nassignment\n")[0].splitlines())
        played = asked_program().answer(["play"], topology_text(network), path)
        picture = drawn(path, "--routes", "-", given="\n".join(played).encode())
        self.assertEqual(sorted(picture.has("route")), [(2, 1), (3, 1), (4, 2)])
        for report, said in ((b"now\nroute 9 10.1.0.0/16 9-1\n", "a route of another network"),
                             (b"now\nroute 2 10.1.0.0/16 2-9\n", "a route of another network"),
                             (b"now\nroute 2 10.1.0.0/16 3-1\n", "a route of another network"),
                             (b"now\nroute 2 10.1.0.0/16\n", "no `route AS PREFIX PATH`"),
                             (b"now\nroute two 10.1.0.0/16 2-1\n", "no `route AS PREFIX PATH`")):
            self.assertEqual(run("draw", path, "--routes", "-", given=report), (1, "", f"draw: -:2: {said}\n"))

    def test_one_prefix_of_two(self):
        text = network_text(3, [(1, 2), (2, 3)], "origin 3 10.2.0.0/16\nassignment\n"
                            "path 1 10.1.0.0/16 1\npath 2 10.1.0.0/16 2-1\npath 3 10.1.0.0/16 3-2-1\n"
                            "path 3 10.2.0.0/16 3\npath 2 10.2.0.0/16 none\npath 1 10.2.0.0/16 none\n").encode()
        picture = drawn("-", given=text)
        self.assertEqual((sorted(picture.has("route")), picture.texts["good"]), ([(2, 1), (3, 2)], ["stable"]))
        picture = drawn("-", "--prefix", "10.2.0.0/16", given=text)
        self.assertEqual((picture.circles["origin"], picture.has("wanted")), ([3], [(2, 3)]))
        self.assertEqual(picture.texts["bad"], ["unstable: 2 has none, 2-3 is better"])

    def test_a_wider_rule_of_two_prefixes(self):
        text = network_text(3, [(1, 2), (2, 3)], "origin 3 10.0.0.0/16\nrank 2 10.0.0.0/8 2-1 2-3\n").encode()
        for words, origin, rule in (([], 3, "2-3"), (["--prefix", PREFIX], 1, "2-1")):
            picture = drawn("-", *words, given=text)
            written = [path for kind, paths in picture.texts.items() if kind.startswith("rule") for path in paths]
            self.assertEqual((picture.circles["origin"], [path for path in written if path.startswith("2-")]), ([origin], [rule]))

    def test_random_networks_of_every_size(self):
        for seed in (*range(1, 14, 3), 20, 35, 50, 64):
            graph = topology.hierarchy(seed, seed, seed // 2)
            lines = topology.network_lines(graph, graph.routers[-1:], "gao-rexford")
            text = "\n".join(lines + topology.schedule_lines(Network(lines), 1000, None)) + "\n"
            status, out, error = run("draw", "-", given=text.encode())
            with self.subTest(routers=seed):
                self.assertEqual((status, error), (0, ""))
                (picture,), root = seen(out)
                said = asked_program().answer(["play"], text, "made")
                routes = {router: path for (router, _), path in routes_of(said[said.index("now"):]).items()}
                self.assertEqual(len(picture.spots), seed)
                self.assertEqual(sorted(picture.has("route")), hops(routes))
                self.assertEqual((len(picture.has("link")), picture.has("broken")), (len(graph.links()), []))
                width, height = float(root.get("width")), float(root.get("height"))
                for x, y in picture.spots.values():
                    self.assertTrue(18 < x < width - 18 and 18 < y < height - 18)

    def test_links_and_arrows_keep_clear_of_other_routers(self):
        """Also where routers stand in a row, and links lead past some of them."""
        row = {1: (0, 0), 2: (1, 0), 3: (2, 0), 4: (3, 0)}
        for spots, links in ((row, list(itertools.combinations(row, 2))),
                             ({1: (0, 0), 2: (1, 0.1), 3: (2, 0)}, [(1, 2), (2, 3), (1, 3)])):
            network = Network(network_text(len(spots), links).splitlines())
            routes = {router: (router, 1) for router in network.routers if router > 1}
            shown = layout.Drawn(next(iter(network.origins)), {1: (1,), **routes})
            (picture,), _ = seen(drawing.svg([drawing.Picture(layout.Layout(network, spots, [shown]), shown)]))
            self.check_clear(picture)
        for seed in range(40):
            size = 3 + seed % 10
            graph = topology.hierarchy(size, seed, size)
            network = Network(topology.network_lines(graph, graph.routers[-1:], "shortest"))
            placed = layout.Layout(network, layout.places(network, size), [layout.Drawn(None)])
            (picture,), _ = seen(drawing.svg([drawing.Picture(placed, layout.Drawn(None))]))
            self.check_clear(picture)

    def check_clear(self, picture):
        for kind, curve in picture.curves:
            ends = {picture.nearest(curve[0]), picture.nearest(curve[-1])}
            whole = (curve[0], curve[1], curve[2]) if len(curve) == 3 else (
                curve[0], tuple((one + other) / 2 for one, other in zip(*curve)), curve[1])
            for at in range(101):
                point = layout.along(whole, at / 100)
                for router, spot in picture.spots.items():
                    if router not in ends:
                        self.assertGreater(math.dist(point, spot), layout.RADIUS, (kind, ends, router))

    def test_texts_stand_off_the_rings(self):
        _, out, _ = run("film", "examples/play/wedgie-whole.txt")
        for picture in seen(out)[0]:
            for kind, x, y in picture.places:
                if kind.startswith("rule"):
                    near = min(abs(x - spot_x) for spot_x, spot_y in picture.spots.values() if abs(spot_y - y) < 30)
                    self.assertGreater(near, layout.RADIUS + 7 + 3)

    def test_what_is_kept_and_what_is_best_differ_without_colours(self):
        picture = drawn("examples/good-gadget-direct.txt")
        self.assertEqual(picture.texts["rule before best"], ["2-4-1 best"])
        self.assertIn("2-1", picture.texts["rule before kept"])
        def style(kind):
            found = re.search(rf"\n\.{kind} {{([^}}]*)}}", drawing.STYLE)
            return re.sub(r"(fill|stroke|marker-end): [^;}]*[;}]?", "", found[1])

        for kind, other in (("kept", "best"), ("route", "left"), ("left", "wanted"), ("link", "broken"),
                            ("good", "bad")):
            self.assertNotEqual(style(kind), style(other))

    def test_colours_that_a_deuteranope_tells_apart(self):
        """By the matrix of Machado, Oliveira and Fernandes (2009) for no green cones."""
        rows = (0.367322, 0.860646, -0.227968), (0.280085, 0.672501, 0.047413), (-0.011820, 0.042940, 0.968881)

        def seen_as(colour):
            parts = [int(colour[at:at + 2], 16) / 255 for at in (1, 3, 5)]
            light = [part / 12.92 if part <= 0.04045 else ((part + 0.055) / 1.055) ** 2.4 for part in parts]
            return [sum(factor * own for factor, own in zip(row, light)) for row in rows]

        for one, other in ((drawing.BLUE, drawing.ORANGE), (drawing.BLUE, drawing.YELLOW),
                           (charts.COLOURS["announce"], charts.COLOURS["withdraw"])):
            self.assertGreater(math.dist(seen_as(one), seen_as(other)), 0.3)
        self.assertLess(math.dist(seen_as("#188038"), seen_as("#d93025")), 0.3)

    def test_a_legend_of_what_is_there(self):
        for words, wanted in ((["draw", "examples/disagree.txt"], ["origin", "route", "the path that it has"]),
                              (["film", "examples/play/wedgie-whole.txt"],
                               ["origin", "route", "another route than before", "the path that it has",
                                "session down"])):
            _, out, _ = run(*words)
            self.assertEqual(explained(seen(out)[1]), wanted)

    def test_relations(self):
        given = network_text(4, [(1, 2), (3, 1), (2, 3), (3, 4)]).replace("link 1 2", "# 2 customer of 1\nlink 1 2")
        given = given.replace("link 3 1", "# 1 customer of 3\nlink 3 1").replace("link 2 3", "# 3 peer of 2\nlink 2 3")
        status, out, _ = run("draw", "-", given=given.encode())
        (picture,), root = seen(out)
        tips = [list(map(float, re.findall(r"[\d.]+", element.get("d"))))[:2] for group in root.findall(SVG + "g")
                if group.get("class") != "explained" for element in group.iter(SVG + "path")
                if element.get("class") == "provider"]
        for tip, (provider, customer) in zip(tips, ((1, 2), (3, 1))):
            self.assertLess(math.dist(tip, picture.spots[provider]), math.dist(tip, picture.spots[customer]))
        self.assertEqual(len(tips), 2)
        peers = next(element for element in root.iter(SVG + "circle") if element.get("class") == "peers")
        far = [math.dist((float(peers.get("cx")), float(peers.get("cy"))), picture.spots[router]) for router in (2, 3)]
        self.assertLess(abs(far[0] - far[1]), 2)
        self.assertLess(abs(sum(far) - math.dist(picture.spots[2], picture.spots[3])), 2)
        self.assertEqual(explained(root)[-2:], ["points to the provider", "peers"])

    def test_routers_stand_apart(self):
        for size in (2, 3, 5, 8, 12, 20, 40, 64):
            graph = topology.hierarchy(size, size, size)
            network = Network(topology.network_lines(graph, graph.routers[-1:], "shortest"))
            for origin in (1, size):
                spots = layout.places(network, origin)
                for one, other in itertools.combinations(spots.values(), 2):
                    self.assertGreater(math.dist(one, other) * layout.LINK, 2 * layout.RADIUS + 8)

    def test_refusals(self):
        text = (TOP / "examples/disagree.txt").read_text()
        path = "path 2 10.1.0.0/16 2-3-1"
        nobody, form = "N3: a router that no earlier line names", "N1: "
        for wrong, why in ((text.replace("link 2 3", "link 2 9"), nobody), (text.replace(path, "path 2 10.1.0.0/16 2-4-1"), nobody),
                           (text.replace(path, "path 2 10.1.0.0/16 2-1-3"), "S1: a path that isn't permitted"), (text + "schedule\n", form)):
            pairs = itertools.zip_longest(text.splitlines(), wrong.splitlines())
            line = next(at for at, (was, now) in enumerate(pairs, 1) if was != now)
            status, out, error = run("draw", "-", given=wrong.encode())
            self.assertEqual((status, out), (1, ""))
            self.assertTrue(error.startswith(f"draw: -:{line}: {why}"), error)
            self.assertIn(f": {wrong.splitlines()[line - 1]}", error)
        for word in ("10.2.0.0/16", "x", "1.2.3.4/99"):
            self.assertEqual(run("draw", "examples/ring.txt", "--prefix", word), (1, "", f"draw: no origin has the prefix {word}\n"))
        self.assertEqual(run("draw", "nothing"), (1, "", "draw: nothing: No such file or directory\n"))
        self.assertEqual(run("draw", "-", "--routes", "-")[0], 2)
        self.assertEqual(run("draw")[0], 2)
        self.assertEqual(run("draw", "--help")[0], 0)


def topology_text(network):
    return network.text + "\n".join(topology.schedule_lines(network, 1000, None)) + "\n"


class Broken(unittest.TestCase):
    """Which links have a session that is up, as the program says."""

    def broken(self, network, orders):
        text = network.text + "".join(line + "\n" for line in ["schedule", *orders, f"rounds {tracing.rest_bound(network)}"])
        return playing.state_behind(asked_program(), text, "made").broken

    def test_links_that_are_not_started(self):
        for seed in range(20):
            draw = random.Random(seed)
            size = draw.choice([2, 5, 12, 30, 64])
            graph = topology.hierarchy(size, seed, size)
            network = Network(topology.network_lines(graph, graph.routers[-1:], "gao-rexford"))
            starts = topology.texts.starts(network)
            omitted = set(draw.sample(range(len(starts)), min(len(starts), draw.randrange(4))))
            orders = [order for at, order in enumerate(starts) if at not in omitted] + ["rounds 1000"]
            wanted = {frozenset(map(int, starts[at].split()[1:])) for at in omitted}
            with self.subTest(seed=seed):
                self.assertEqual(self.broken(network, orders), wanted)

    def test_sessions_that_close(self):
        network = Network(network_text(3, [(1, 2), (2, 3), (1, 3)]).splitlines())
        up = topology.texts.starts(network) + ["rounds 40"]
        sets = {name: {frozenset(map(int, link)) for link in name.split()} for name in ("12", "12 23", "12 23 13", "")}
        for orders, wanted in ((["stop 1 2"], "12"), (["stop 1 2", "rounds 5", "start 1 2", "start 2 1"], ""),
                               (["reset 2 1", "rounds 5"], "12"), (["restart 2", "rounds 5"], "12 23"),
                               (["ticks 90"], "12 23 13"), (["ticks 30"], ""), ([], "")):
            self.assertEqual(self.broken(network, up + orders), sets[wanted], orders)

    def test_rules_and_prefixes_in_the_way(self):
        links = [(1, 2), (2, 3), (1, 3)]
        for more in ("rank 2 0.0.0.0/0\nrank 3 198.18.0.0/15 3-2-1\n", "origin 2 198.18.0.0/32\norigin 3 198.18.3.0/24\n",
                     "origin 2 0.0.0.0/0\n", "cut 1\n", "cut 1\nrank 1 198.18.0.0/23\n"):
            network = Network(network_text(3, links, more).splitlines())
            orders = [order for order in topology.texts.starts(network) if order != "start 3 1"] + ["rounds 3000"]
            self.assertEqual(self.broken(network, orders), {frozenset((1, 3))})

    def test_small_pieces_with_much_before_them(self):
        origins = "".join(f"origin 1 20.{number}.0.0/16\n" for number in range(40))
        network = Network(network_text(2, [(1, 2)], origins + "cut 1\n").splitlines())
        orders = [*topology.texts.starts(network), "rounds 5000", *topology.texts.originations(network)]
        self.assertEqual(self.broken(network, orders), set())

    def test_a_network_near_its_limits(self):
        """Nothing is added to a network to ask it: one with 256 prefixes, and 64 rules of a router, is answered too."""
        origins = "".join(f"origin 1 20.{number}.0.0/16\n" for number in range(256))
        rules = "".join(f"rank 2 20.{number}.0.0/16\n" for number in range(64))
        network = Network(network_text(3, [(1, 2), (2, 3)], origins.replace("origin 1 20.0.0.0/16\n", "") + rules).splitlines())
        orders = ["start 1 2", "start 2 1", "rounds 20"]
        self.assertEqual(self.broken(network, orders), {frozenset((2, 3))})


class Film(unittest.TestCase):
    def pictures(self, *words, given=b""):
        status, out, error = run("film", *words, given=given)
        self.assertEqual((status, error), (0, ""))
        return seen(out)[0]

    def test_the_wedgie(self):
        """RFC 4264: after the primary link has failed and come back, the network stays with the backup link."""
        pictures = self.pictures("examples/play/wedgie-whole.txt")
        meant, backup = [(2, 3), (3, 4), (4, 1)], [(2, 1), (3, 2), (4, 1)]
        self.assertEqual([sorted(picture.has("route")) for picture in pictures],
                         [meant, meant, [(2, 1), (3, 2), (4, 3)], backup, meant, meant])
        self.assertEqual([picture.has("broken") for picture in pictures], [[(1, 2)], [], [(1, 4)], [], [(1, 2)], []])
        self.assertEqual([sorted(picture.circles.get("changed", [])) for picture in pictures], [[], [], [2, 3, 4], [4], [2, 3], []])
        self.assertEqual([picture.texts["good"][-1] for picture in pictures],
                         ["stable without link 1-2", "snapshot 1 settled", "stable without link 1-4", "snapshot 3 settled",
                          "stable without link 1-2", "snapshot 4 settled"])
        self.assertEqual(pictures[2].texts["bad"], ["no snapshot 2: session 1-4 is down"])
        self.assertEqual(pictures[3].texts["title"], ["4. the primary link is back: stuck"])

    def test_steps(self):
        for name, titles in (("wedgie-stuck", ["6 starts, originate 1", "start 1 2, start 2 1", "stop 1 4", "start 1 4, start 4 1"]),
                             ("reset-again", ["start 1 2, start 2 1, originate 1", "reset 2 1", "start 1 2"]),
                             ("snapshot-not-up", ["snapshot 1 1"])):
            pictures = self.pictures(f"examples/play/{name}.txt")
            self.assertEqual([picture.texts["title"][0] for picture in pictures],
                             [f"{at}. {title}" for at, title in enumerate(titles, 1)])

    def test_what_is_not_connected_is_not_judged(self):
        first, second, _ = self.pictures("examples/play/disagree.txt")
        self.assertEqual(("good" in first.texts, "bad" in first.texts), (False, False))
        self.assertEqual(second.texts["good"], ["stable without link 1-2"])

    def test_each_order(self):
        text = (TOP / "examples/play/session.txt").read_text()
        orders = [line for line in text.split("\nschedule\n")[1].splitlines() if line and not line.startswith("#")]
        pictures = self.pictures("examples/play/session.txt", "--each")
        self.assertEqual(len(pictures), len(orders))
        asked, head = asked_program(), text.split("\nschedule\n")[0] + "\nschedule\n"
        for at, picture in enumerate(pictures, 1):
            state = playing.state_behind(asked, head + "\n".join(orders[:at]) + "\n", "session")
            self.assertEqual(sorted(picture.has("route")),
                             hops({router: path for (router, _), path in state.routes.items()}))

    def test_a_silent_failure(self):
        """The session is up while nothing comes over its link, until the hold time is over; other links are heard."""
        pictures = self.pictures("examples/play/link-fails-silently.txt")
        self.assertEqual([picture.has("silent") for picture in pictures], [[], [(1, 2)], [(1, 2)], [], []])
        self.assertEqual([picture.texts.get("seconds") for picture in pictures], [None, ["30 s"], ["60 s"], None, None])
        self.assertEqual([picture.has("broken") for picture in pictures], [[], [], [], [(1, 2)], [(1, 2)]])
        self.assertEqual([sorted(picture.has("route"))[0] for picture in pictures], [(2, 1)] * 4 + [(2, 3)])
        self.assertEqual(pictures[3].texts["bad"], ["2 has 2-1, over the link 2-1 that is down"])
        self.assertEqual(pictures[4].texts["open"], ["stable without link 1-2, and 1 UPDATE on its way"])
        self.assertEqual(pictures[1].texts["title"], ["2. the link 1 2 falls silent, and nobody is told"])
        later = self.pictures("examples/play/link-fails-silently.txt", "--from", 3, "--to", 4)
        self.assertEqual([picture.texts["title"][0][:2] for picture in later], ["3.", "4."])
        self.assertEqual(later[1].has("broken"), [(1, 2)])

    def test_a_link_is_up_when_its_session_is(self):
        text = (TOP / "examples/play/session.txt").read_text()
        head, orders = text.split("\nschedule\n")[0] + "\nschedule\nstart 1 2\nstart 2 1\n", ["rounds 1"] * 8
        given = (head + "".join(order + "\n" for order in orders)).encode()
        pictures = self.pictures("-", "--each", given=given)
        places = tracing.orders_of(given.decode())
        events = tracing.events_of(asked_program().trace(given.decode(), "made"), places)
        came = [event.line for event in events if any(said.endswith(" Established") for said in event.said)]
        self.assertEqual(len(came), 2)
        self.assertEqual([bool(picture.has("broken")) for picture in pictures], [place < max(came) for place in places])
        self.assertTrue(places[2] < max(came) < places[-1])

    def test_one_layout(self):
        for name in ("wedgie-whole", "link-flaps", "crash"):
            pictures = self.pictures(f"examples/play/{name}.txt")
            for picture in pictures[1:]:
                self.assertEqual(picture.spots, pictures[0].spots)

    def test_titles_in_any_letters(self):
        text = network_text(1, []) + "schedule\n# title: Z\u00fcrich \u2192 <Bern> & \x07\ntick 1\n"
        self.assertEqual(self.pictures("-", given=text.encode())[0].texts["title"], ["1. Z\u00fcrich \u2192 <Bern> & "])

    def test_an_unstable_moment(self):
        pictures = self.pictures("examples/play/ring.txt")
        network = Network((TOP / "examples/ring.txt").read_text().split("\nassignment\n")[0].splitlines())
        self.assertLessEqual(len(pictures[-1].circles["unstable"]), len(network.routers) - 1)

    def test_refusals(self):
        for text, said in ((network_text(1, []), "-: no schedule"), (network_text(1, []) + "schedule\n", "-: no schedule"),
                           ("router 1 10.0.0.1\nschedule\ntick 1\n", "-: no origin, so no routes"),
                           (network_text(1, []) + "schedule\ntick 1\nstart 1 2\n", "-:5: N3: a router that no earlier line names: start 1 2"),
                           (network_text(1, []) + "schedule\nsnapshot 1 2\n# more\nsnapshot 1 2\n",
                            "-:6: E3: a snapshot whose number is not above the router's last: snapshot 1 2")):
            self.assertEqual(run("film", "-", given=text.encode()), (1, "", f"film: {said}\n"))
        text = network_text(1, []) + "schedule\n" + "tick 1\n" * 61
        self.assertEqual(run("film", "-", "--each", given=text.encode()),
                         (1, "", "film: 61 steps, and at most 60 are drawn: --from and --to\n"))
        self.assertEqual(run("film", "-", "--each", "--from", 2, given=text.encode())[0], 0)
        self.assertEqual(run("film", "-", "--each", "--from", 62, given=text.encode()),
                         (1, "", "film: -: 61 steps, and none of these is asked for\n"))
        self.assertEqual(run("film", "--columns", "0", "x")[0], 2)
        self.assertEqual(run("film", "--help")[0], 0)


class Documents(unittest.TestCase):
    def test_pictures_are_as_they_are_made(self):
        self.assertEqual(run("pictures", "--compare"), (0, "", ""))

    def test_a_text_comes_out_the_same_again(self):
        first, again = (start("draw", "examples/ring-next.txt")[1] for _ in range(2))
        self.assertTrue(first and first == again)
