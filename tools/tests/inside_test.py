"""Tests of sets of which an AS has several routers: the rules of iBGP, and what is no order of paths."""
import unittest

from support import load  # noqa: F401, for it sets the path
from inside_cases import CASES, EDGES, MAP, ONE, PROVIDERS, SQUARE, Net

from bgpnet.configs.as_random import make
from bgpnet.configs.files import read_set
from bgpnet.configs.igp import Edges
from bgpnet.configs.ranks import Ranks, network_lines
from bgpnet.configs.sessions import dotted
from bgpnet.configs.telling import Names, explain
from bgpnet.network import Prefix
from bgpnet.program import Refusal


def set_of_files(files, **more):
    """A set of files, among them the edges of the IGP if there are some."""
    texts = dict(files)
    edges = texts.pop(EDGES, None)
    return read_set(texts, edges=edges and Edges(edges, EDGES), **more)


def shown(routers, way, wanted):
    """A way, with those of its attributes that a text names."""
    route, said = way.route, [routers.path_label(way.path)]
    for word, value in (("lp", route.preference), ("med", route.med if route.has_med else None),
                        ("via", route.next_hop and dotted(route.next_hop)),
                        ("metric", route.heard and route.heard.metric)):
        if f" {word} " in wanted:
            said.append(f"{word} {value}")
    return " ".join(said)


class Rules(unittest.TestCase):
    def test_each_rule_of_ibgp(self):
        for sentence, files, wanted in CASES:
            with self.subTest(sentence):
                routers = set_of_files(files)
                ranks = Ranks(routers)
                for (name, prefix), ways in wanted.items():
                    order = ranks.orders[Prefix.read(prefix)][routers.named_number(name)]
                    found = [shown(routers, way, (ways + [""] * len(order.ways))[at]) for at, way in
                             enumerate(order.ways)]
                    self.assertEqual(found, ways)


def refusal_of(files, chosen=None, with_ties=False, **more):
    """What is refused of a set, line by line."""
    try:
        Ranks(set_of_files(files, **more), chosen, with_ties=with_ties)
    except Refusal as why:
        return why.lines
    return []


def circle(options=""):
    """RFC 3345: c hears of two ways over AS 65002, the nearer one with the worse MED, and of one over AS 65003 that is
    as far as between them."""
    return Net("a1 b1 d1 c1 x2 y2 z3 o4", "a-c 5, b-c 20, d-c 10, a-x, b-y, d-z, x-o, y-o, z-o",
               reflect="c: a b d", sessions="c-a", options={"c": options},
               top={"x": MAP + "metric 10", "y": MAP + "metric 5"},
               family={"x": "neighbor {a} route-map M out", "y": "neighbor {b} route-map M out"}).files()


class NoOrder(unittest.TestCase):
    """What is no order of paths is refused, with the paths between which it stands."""

    def test_routes_that_go_in_a_circle(self):
        for options in ("", "bgp deterministic-med"):
            said = refusal_of(circle(options))
            self.assertEqual(len(said), 1, said)
            self.assertIn("c 10.1.0.0/16: no order: ", said[0])
            for words in ("c-b-y-o over c-a-x-o by MED", "c-a-x-o over c-d-z-o by IGP metric",
                          "c-d-z-o over c-b-y-o by IGP metric", "'bgp always-compare-med' makes an order"):
                self.assertIn(words, said[0])
            self.assertTrue(said[0].startswith("c.conf:"), said)
        routers = set_of_files(circle("bgp always-compare-med"))
        ways = Ranks(routers).orders[Prefix.read(ONE)][routers.named_number("c")].ways
        self.assertEqual([routers.path_label(way.path) for way in ways], ["c-d-z-o", "c-b-y-o", "c-a-x-o"])

    def test_med_that_leaves_an_order(self):
        """Two ways of one AS, and one that stands above both, or below both."""
        for cost, first in (("1", "d"), ("30", "b")):
            files = Net("a1 b1 d1 c1 x2 y2 z3 o4", f"a-c 5, b-c 20, d-c {cost}, a-x, b-y, d-z, x-o, y-o, z-o",
                        reflect="c: a b d", top={"x": MAP + "metric 10", "y": MAP + "metric 5"},
                        family={"x": "neighbor {a} route-map M out", "y": "neighbor {b} route-map M out"}).files()
            routers = set_of_files(files)
            ways = Ranks(routers).orders[Prefix.read(ONE)][routers.named_number("c")].ways
            self.assertEqual(routers.label(ways[0].path[1]), first)
            self.assertEqual(len(ways), 3)

    def test_random_sets_have_an_order_or_a_refusal(self):
        for seed in (461, 146, 7, 12, 15):
            texts = make(seed)
            said = refusal_of(texts)
            self.assertTrue(all("no order" in one for one in said), said)

    def test_a_way_that_comes_back_to_a_router(self):
        """By a neighbor that excludes the AS from the path; the line is that by which it does."""
        files = Net("a1 b1 x2 o4", "a-b, a-x, b-x, a-o", top={"x": MAP + "as-path exclude 65001"},
                    family={"x": "neighbor {b} route-map M out"}).files()
        said = refusal_of(files)
        place = f"x.conf:{1 + files['x.conf'].splitlines().index('set as-path exclude 65001')}: {ONE}: "
        self.assertEqual([why[:len(place)] for why in said], [place], said)
        self.assertIn("a-b-x-a-o is permitted, and passes a twice", said[0])

    def test_a_choice_by_age(self):
        files = {name: text.replace(" bgp bestpath compare-routerid\n", "") for name, text in
                 Net("a1 b1 x2 y3 o4", "a-b, a-x, a-y, x-o, y-o").files().items()}
        said = refusal_of(files)
        self.assertEqual(len(said), 1, said)
        self.assertTrue(said[0].startswith("a.conf:"), said)
        for words in ("tie: a-x-o, a-y-o: FRR keeps the one that it selected first", "no order", "compare-routerid"):
            self.assertIn(words, said[0])
        self.assertEqual(refusal_of(files, with_ties=True), [])
        ties = Ranks(set_of_files(files), with_ties=True).orders[Prefix.read(ONE)][1].ties
        self.assertEqual([len(tie.paths) for tie in ties], [2])

    def test_no_tie_or_circle_of_what_can_not_last(self):
        """Two ways of y that only their age tells apart are nothing where y has one of its own."""
        links, ids = "a-b, a-y, b-y, a-x", {}
        for lines in ("", "bgp always-compare-med"):
            files = Net("a1 b1 x2 y3", links + ", x-y", networks={"y": (ONE,)}, ids=ids, options={"x": lines}).files()
            files["x.conf"] = files["x.conf"].replace(" bgp bestpath compare-routerid\n", "")
            self.assertEqual(refusal_of(files), [])
        files = Net("a1 b1 c2 x3 o4", "a-b, a-c, b-c, a-x, x-o, c-o", networks={"o": (ONE,)}).files()
        files["c.conf"] = files["c.conf"].replace(" bgp bestpath compare-routerid\n", "")
        self.assertEqual(refusal_of(files), [])

    def test_no_tie_where_a_step_decides_before_the_age(self):
        for change in ("local-preference 200", "as-path prepend 64999", "origin egp"):
            files = Net("a1 b1 x2 y3 o4", "a-b, a-x, a-y, x-o, y-o", top={"a": MAP + change},
                        family={"a": "neighbor {y} route-map M in"}).files()
            files["a.conf"] = files["a.conf"].replace(" bgp bestpath compare-routerid\n", "")
            self.assertEqual(refusal_of(files), [], change)

    def test_multipath_decides_nothing(self):
        plain, relaxed = (Ranks(set_of_files(Net(PROVIDERS, SQUARE, options={"c": line}).files()))
                          for line in ("", "bgp bestpath as-path multipath-relax"))
        for prefix in plain.origins:
            self.assertEqual(plain.paths(prefix), relaxed.paths(prefix))


class Refusals(unittest.TestCase):
    def assert_refused(self, files, place, words, **more):
        said = refusal_of(files, **more)
        self.assertTrue(said and said[0].startswith(place), said)
        self.assertIn(words, said[0])

    def test_lines(self):
        for line, why in (("bgp confederation identifier 7", "a confederation"),
                          ("neighbor 10.255.0.2 addpath-tx-all-paths", "addpath"),
                          ("bgp bestpath as-path multipath-relax as-set", "as-set"),
                          ("neighbor 10.255.0.2 local-as 7", "local-as")):
            files = Net(PROVIDERS, SQUARE).files()
            files["a.conf"] = files["a.conf"].replace(" address-family", f" {line}\n address-family")
            self.assert_refused(files, "a.conf:", why)

    def test_the_igp(self):
        files = Net(PROVIDERS, SQUARE).files()
        both = dict(files, **{"a.conf": files["a.conf"].replace("router ospf\n", "router ospf\n network 10.0.0.0/8 area 0\n")})
        self.assert_refused(both, "a.conf:", "FRR 8.4 does not take this line")
        areas = dict(files, **{"a.conf": files["a.conf"].replace("ospf area 0", "ospf area 1", 1)})
        self.assert_refused(areas, "a.conf:", "several areas")
        for text, place, why in (
                ("a b\n", "igp.txt:1", "no edge"), ("# none\na b 0\n", "igp.txt:2", "a cost of 1 to"),
                ("a b 5 6 7", "igp.txt:1", "no edge"), ("a q 5", "igp.txt:1", "no configuration is of a router q"),
                ("a b 5\nb a 5", "igp.txt:2", "the edge stands twice"), ("a a 5", "igp.txt:1", "an edge joins two")):
            self.assert_refused(dict(files, **{EDGES: text}), place, why)
        self.assert_refused(files, "there is no link a-o", "of the IGP", down=["a-o"])
        self.assert_refused(files, "there are no routers a-q", "a link is written as U-V", down=["a-q"])
        alone = Net("a1 x2", "a-x").files()
        self.assert_refused(dict(alone, **{EDGES: "a x 5"}), "an IGP is of an AS", "several routers")

    def test_next_hops_that_bgp_announces(self):
        files = Net(PROVIDERS, SQUARE, hop="", networks={"o": (ONE,), "y": ("10.100.0.0/16",)}).files()
        self.assert_refused(files, "a.conf:", "lies in 10.100.0.0/16, which BGP announces")
        self.assertEqual(refusal_of(Net(PROVIDERS, SQUARE, hop="", carried="a-x b-y",
                                        networks={"o": (ONE,), "y": ("10.100.0.0/16",)}).files()), [])

    def test_neighbors(self):
        files = Net(PROVIDERS, SQUARE).files()
        other = dict(files, **{"c.conf": files["c.conf"].replace("10.255.0.1 remote-as internal",
                                                                 "10.255.0.1 remote-as 65009")})
        self.assert_refused(other, "c.conf:", "its address is one of a, AS 65001")
        lost = {name: "".join(line + "\n" for line in text.splitlines() if " ip address" not in line)
                .replace("10.255.0.1 remote", "10.99.0.1 remote").replace("10.255.0.1 update", "10.99.0.1 update")
                .replace("10.255.0.1 next-hop", "10.99.0.1 next-hop").replace("router-id 10.255.0", "router-id 1.0.0")
                for name, text in Net("a1 b1 c1 x2", "a-b, a-c, b-c, a-x").files().items()}
        self.assert_refused(lost, "a.conf:", "which router of AS 65001 has this address no line says")

    def test_a_provider_of_bird(self):
        files = Net("a1 b1 x2", "a-b 7, a-x").files()
        files["x.conf"] = ("hostname \"x\";\nrouter id 10.255.0.3;\nprotocol device { }\n"
                           "protocol static { ipv4; route 10.1.0.0/16 blackhole; }\n"
                           "protocol bgp a { local 10.100.2.2 as 65002; neighbor 10.100.2.1 as 65001; "
                           "ipv4 { import all; export all; }; }\n")
        routers = set_of_files(files)
        orders = Ranks(routers).orders[Prefix.read(ONE)]
        self.assertEqual([(routers.path_label(way.path), way.route.heard.metric) for way in orders[2].ways], [("b-a-x", 7)])
        self.assertEqual([dotted(way.route.next_hop) for way in orders[1].ways], ["10.100.2.2"])

    def test_a_router_of_bird(self):
        files = Net("a1 b1 x2", "a-b, a-x").files()
        files["b.conf"] = ("router id 10.255.0.2;\nprotocol device { }\nprotocol bgp x { local as 65001; "
                           "neighbor 10.100.1.1 as 65002; ipv4 { import all; export all; }; }\n")
        self.assert_refused(files, "b.conf:3", "iBGP of BIRD is not read")


class Said(unittest.TestCase):
    """What is said of a set besides its network."""

    def notes(self, files, **more):
        return [f"{place}: {said}" for place, said in set_of_files(files, **more).notes()]

    def test_no_igp(self):
        files = Net(PROVIDERS, SQUARE, igp="").files()
        said = self.notes(files)
        self.assertEqual(sum("AS 65001: nothing says how its routers reach each other" in one for one in said), 1, said)
        self.assertEqual(refusal_of(files), [])
        self.assertEqual(self.notes(Net(PROVIDERS, SQUARE).files()), [])

    def test_lines_that_are_not_read(self):
        files = Net(PROVIDERS, SQUARE).files()
        files["a.conf"] = files["a.conf"].replace("router ospf\n", "router ospf\n default-information originate\n")
        self.assertTrue(any("'default-information originate' is not read" in one for one in self.notes(files)))
        files = Net(PROVIDERS, SQUARE).files()
        files["a.conf"] = files["a.conf"].replace(" ip ospf cost 10\n", "")
        self.assertEqual(sum("no line 'ip ospf cost'" in one for one in self.notes(files)), 2)

    def test_a_session_that_is_not_reached(self):
        files = Net("a1 b1 c1 x2", "a-b, b-c, a-x", interfaces={"b-c": "shutdown"}).files()
        said = self.notes(Net("a1 b1 c1 x2", "a-b, b-c, a-c, a-x", interfaces={
            "b-c": "shutdown", "a-c": "shutdown"}).files(), down=["a-b"])
        self.assertTrue(any("is not reached: there is no session" in one for one in said), said)
        self.assertTrue(any("the network isn't connected" in one for one in refusal_of(files)))

    def test_networks_that_are_there(self):
        """With `import-check` a network is announced that is in the router's table."""
        for line, is_told in (("", True), ("ip route 10.1.0.0/16 blackhole", False)):
            files = Net("a1 b1 x2", "a-b 7, a-x", top={"x": line}).files()
            files["x.conf"] = files["x.conf"].replace(" no bgp network import-check\n", "")
            self.assertEqual(any("taken as announced" in one for one in self.notes(files)), is_told, line)

    def test_numbers_and_names(self):
        files = Net("r10.1 r2.1 x2".replace(".", ""), "r10-r2, r2-x").files()
        routers = set_of_files(files)
        self.assertEqual([routers.label(number) for number in routers.routers], ["r2", "r10", "x"])
        lines, _ = network_lines(Ranks(routers))
        self.assertIn("# 2 called r10", lines)
        self.assertIn("# 2 of AS 65001", lines)
        self.assertIn("rank 2 10.1.0.0/16 2-1-3", lines)

    def test_a_link_of_the_igp_that_is_down(self):
        files = Net(PROVIDERS, SQUARE.replace("b-c 10", "b-c 9")).files()
        for edges in ({}, {EDGES: "a b 10\na c 10\nb c 9\n"}):
            orders = []
            for down in ([], ["b-c"]):
                routers = set_of_files({**files, **edges}, down=down)
                ways = Ranks(routers).orders[Prefix.read(ONE)][routers.named_number("c")].ways
                orders.append([(routers.path_label(way.path), way.route.heard.metric) for way in ways])
            self.assertEqual(orders, [[("c-b-y-o", 9), ("c-a-x-o", 10)], [("c-a-x-o", 10), ("c-b-y-o", 20)]])

    def test_explain(self):
        routers = set_of_files(circle("bgp always-compare-med"))
        said = explain(Ranks(routers, [Prefix.read(ONE)], True), "c", Prefix.read(ONE), Names([]))
        text = "\n".join(said)
        for words in ("AS_PATH 65002 65004", "iBGP of a client", "next hop 10.255.0.1 metric 5", "router id 10.255.0.1",
                      "below c-d-z-o by MED: 5 against 0", "below c-b-y-o by MED: 10 against 5"):
            self.assertIn(words, text)

    def test_each_step_is_told(self):
        for files, name, words in (
                (Net(PROVIDERS, SQUARE, family={"c": "neighbor {b} weight 5"}).files(), "c", "by weight: 0 against 5"),
                (Net(PROVIDERS, SQUARE, options={"b": "bgp default local-preference 150"}).files(), "c",
                 "by local preference: 100 against 150"),
                (Net(PROVIDERS, SQUARE, top={"a": MAP + "as-path prepend 64999"}, family={
                    "a": "neighbor {x} route-map M in"}).files(), "c", "by length of AS_PATH: 3 against 2"),
                (Net(PROVIDERS, SQUARE, top={"a": MAP + "origin incomplete"}, family={
                    "a": "neighbor {x} route-map M in"}).files(), "c", "by origin: incomplete against igp"),
                (Net(PROVIDERS, SQUARE).files(), "a", "by eBGP before iBGP"),
                (Net(PROVIDERS, SQUARE.replace("b-c 10", "b-c 9")).files(), "c", "by IGP metric: 10 against 9"),
                (Net(PROVIDERS, SQUARE).files(), "c", "by router id: 10.255.0.2 against 10.255.0.1"),
                (Net("a1 c1 r1 s1 x2 o4", "a-r, a-s, s-c 5, r-c 20, a-x, x-o", reflect="r: a c, s: a c").files(), "c",
                 "by address of the neighbor: 10.255.0.4 against 10.255.0.3")):
            routers = set_of_files(files)
            said = explain(Ranks(routers, [Prefix.read(ONE)], True), name, Prefix.read(ONE), Names([]))
            self.assertTrue(any(line.endswith(words) for line in said), (words, said))
